

a.proto"
M*J	