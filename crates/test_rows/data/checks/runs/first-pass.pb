
R
a.protop"
M
fB
fB
oB
o"
M*
E2
S2
S
m
m:
Ebproto4
"
b.protop.M*

E
Vbproto3