
$
a.proto"
M
f (:1bproto3