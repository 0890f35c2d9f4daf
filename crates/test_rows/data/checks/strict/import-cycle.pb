

a.protob.proto

b.protoa.proto

c.protoa.proto