
*
a.proto"	
M*:
x_y.M (Rx_y