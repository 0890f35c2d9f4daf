

a.proto"	
MRfRf