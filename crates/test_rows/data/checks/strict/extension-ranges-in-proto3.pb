

a.proto"	
M*bproto3