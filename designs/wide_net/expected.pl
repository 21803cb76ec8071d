UCLA pl 1.0
bit[0] 4 0 : N
bit[1] 2 12 : N
bit[2] 2 24 : N
bit[3] 22 24 : N
bit[4] 12 24 : N
bit[5] 12 12 : N
bit[6] 32 12 : N
bit[7] 52 12 : N
bit[8] 62 12 : N
bit[9] 42 12 : N
bit[10] 22 12 : N
bit[11] 12 36 : N
bit[12] 2 36 : N
bit[13] 22 36 : N
bit[14] 32 24 : N
bit[15] 52 24 : N
bit[16] 62 24 : N
bit[17] 42 24 : N
bit[18] 52 36 : N
bit[19] 32 36 : N
bit[20] 42 36 : N
bit[21] 62 36 : N
bit[22] 52 0 : N
bit[23] 62 0 : N
clock -4 24 : N /FIXED
clock_out 74 24 : N /FIXED
serial -4 6 : N /FIXED
out[7] 74 2 : N /FIXED
out[15] 74 18 : N /FIXED
out[23] 74 34 : N /FIXED
