UCLA pl 1.0

bit[0]	0	0	: N
bit[1]	0	0	: N
bit[2]	0	0	: N
bit[3]	0	0	: N
bit[4]	0	0	: N
bit[5]	0	0	: N
bit[6]	0	0	: N
bit[7]	0	0	: N
bit[8]	0	0	: N
bit[9]	0	0	: N
bit[10]	0	0	: N
bit[11]	0	0	: N
bit[12]	0	0	: N
bit[13]	0	0	: N
bit[14]	0	0	: N
bit[15]	0	0	: N
bit[16]	0	0	: N
bit[17]	0	0	: N
bit[18]	0	0	: N
bit[19]	0	0	: N
bit[20]	0	0	: N
bit[21]	0	0	: N
bit[22]	0	0	: N
bit[23]	0	0	: N
clock	-4	24	: N /FIXED
clock_out	74	24	: N /FIXED
serial	-4	6	: N /FIXED
out[7]	74	2	: N /FIXED
out[15]	74	18	: N /FIXED
out[23]	74	34	: N /FIXED
