UCLA pl 1.0
a 2 0 : N
b 7 0 : N
l 0 5 : N /FIXED
r 10 5 : N /FIXED
