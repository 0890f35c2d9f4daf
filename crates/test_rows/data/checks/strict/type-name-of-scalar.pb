

a.proto"
M
f (2.M