

a.proto"	
M*