

a.proto"
MB
o