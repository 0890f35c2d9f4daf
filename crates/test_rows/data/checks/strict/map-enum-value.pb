
^
a.proto"G
M
f (2	.M.FEntry,
FEntry
key (
value (2.E:8*

E
A