x under
m 1
m 2
m 3
