
N
a.proto"C
M
f (2	.M.FEntry(
FEntry
key (
value (:8