
^
a.proto"S
M
foo_bar (2.M.FoobarEntry-
FoobarEntry
key (
value (:8