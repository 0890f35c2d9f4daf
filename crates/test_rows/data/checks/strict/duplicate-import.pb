
	
a.proto

b.protoa.protoa.proto