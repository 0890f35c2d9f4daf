

a.proto"
M	
f (: