
!
a.proto"
M	
f (bproto3