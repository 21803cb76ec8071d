UCLA pl 1.0

p0_xor	0	0	: N
s0_xor	0	0	: N
g0_nand	0	0	: N
t0_nand	0	0	: N
c1_nand	0	0	: N
p1_xor	0	0	: N
s1_xor	0	0	: N
g1_nand	0	0	: N
t1_nand	0	0	: N
c2_nand	0	0	: N
p2_xor	0	0	: N
s2_xor	0	0	: N
g2_nand	0	0	: N
t2_nand	0	0	: N
c3_nand	0	0	: N
p3_xor	0	0	: N
s3_xor	0	0	: N
g3_nand	0	0	: N
t3_nand	0	0	: N
c4_nand	0	0	: N
p4_xor	0	0	: N
s4_xor	0	0	: N
g4_nand	0	0	: N
t4_nand	0	0	: N
c5_nand	0	0	: N
p5_xor	0	0	: N
s5_xor	0	0	: N
g5_nand	0	0	: N
t5_nand	0	0	: N
c6_nand	0	0	: N
p6_xor	0	0	: N
s6_xor	0	0	: N
g6_nand	0	0	: N
t6_nand	0	0	: N
c7_nand	0	0	: N
p7_xor	0	0	: N
s7_xor	0	0	: N
g7_nand	0	0	: N
t7_nand	0	0	: N
c8_nand	0	0	: N
a0	1	52	: N /FIXED
b0	5	52	: N /FIXED
s0	3	-6	: N /FIXED
a1	9	52	: N /FIXED
b1	13	52	: N /FIXED
s1	11	-6	: N /FIXED
a2	17	52	: N /FIXED
b2	21	52	: N /FIXED
s2	19	-6	: N /FIXED
a3	25	52	: N /FIXED
b3	29	52	: N /FIXED
s3	27	-6	: N /FIXED
a4	33	52	: N /FIXED
b4	37	52	: N /FIXED
s4	35	-6	: N /FIXED
a5	41	52	: N /FIXED
b5	45	52	: N /FIXED
s5	43	-6	: N /FIXED
a6	49	52	: N /FIXED
b6	53	52	: N /FIXED
s6	51	-6	: N /FIXED
a7	57	52	: N /FIXED
b7	61	52	: N /FIXED
s7	59	-6	: N /FIXED
cin	-6	23	: N /FIXED
cout	68	23	: N /FIXED
