
,
a.proto"
M
g (
2.M.G
Gbproto3