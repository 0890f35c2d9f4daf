

a.proto"
M
f (	B