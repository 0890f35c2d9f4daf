

a.proto"
a-b