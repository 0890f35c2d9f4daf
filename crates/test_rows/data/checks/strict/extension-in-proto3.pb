

a.proto"	
M*
)
b.protoa.proto:
x.M (bproto3