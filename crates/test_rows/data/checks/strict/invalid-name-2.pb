

a.proto"
M
a.b (