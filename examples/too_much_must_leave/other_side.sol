x over
m 1
m 3
