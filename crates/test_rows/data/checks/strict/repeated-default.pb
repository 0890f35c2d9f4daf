

a.proto"
M
f (:1