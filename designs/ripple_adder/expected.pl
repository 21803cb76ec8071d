UCLA pl 1.0
p0_xor 1 24 : N
s0_xor 0 0 : N
g0_nand 8 24 : N
t0_nand 3 12 : N
c1_nand 6 12 : N
p1_xor 11 24 : N
s1_xor 8 0 : N
g1_nand 12 36 : N
t1_nand 11 12 : N
c2_nand 16 12 : N
p2_xor 15 36 : N
s2_xor 16 0 : N
g2_nand 22 36 : N
t2_nand 19 12 : N
c3_nand 21 24 : N
p3_xor 24 24 : N
s3_xor 23 0 : N
g3_nand 27 36 : N
t3_nand 25 12 : N
c4_nand 31 24 : N
p4_xor 34 24 : N
s4_xor 32 0 : N
g4_nand 36 36 : N
t4_nand 35 12 : N
c5_nand 41 24 : N
p5_xor 44 24 : N
s5_xor 40 12 : N
g5_nand 44 36 : N
t5_nand 47 12 : N
c6_nand 51 24 : N
p6_xor 54 24 : N
s6_xor 47 0 : N
g6_nand 61 24 : N
t6_nand 51 12 : N
c7_nand 54 12 : N
p7_xor 54 36 : N
s7_xor 54 0 : N
g7_nand 61 36 : N
t7_nand 61 0 : N
c8_nand 60 12 : N
a0 1 52 : N /FIXED
b0 5 52 : N /FIXED
s0 3 -6 : N /FIXED
a1 9 52 : N /FIXED
b1 13 52 : N /FIXED
s1 11 -6 : N /FIXED
a2 17 52 : N /FIXED
b2 21 52 : N /FIXED
s2 19 -6 : N /FIXED
a3 25 52 : N /FIXED
b3 29 52 : N /FIXED
s3 27 -6 : N /FIXED
a4 33 52 : N /FIXED
b4 37 52 : N /FIXED
s4 35 -6 : N /FIXED
a5 41 52 : N /FIXED
b5 45 52 : N /FIXED
s5 43 -6 : N /FIXED
a6 49 52 : N /FIXED
b6 53 52 : N /FIXED
s6 51 -6 : N /FIXED
a7 57 52 : N /FIXED
b7 61 52 : N /FIXED
s7 59 -6 : N /FIXED
cin -6 23 : N /FIXED
cout 68 23 : N /FIXED
