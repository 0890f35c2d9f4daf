

a.proto"
M	
f (Rf