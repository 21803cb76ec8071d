UCLA pl 1.0
east[0] 21 48 : N
west[0] 11 60 : N
shift[0] 16 60 : N
reg[0] 5 48 : N
east[1] 59 24 : N
west[1] 11 36 : N
shift[1] 12 24 : N
reg[1] 3 12 : N
east[2] 64 24 : N
west[2] 23 36 : N
shift[2] 17 24 : N
reg[2] 19 12 : N
east[3] 44 36 : N
west[3] 28 36 : N
shift[3] 22 24 : N
reg[3] 27 24 : N
east[4] 49 36 : N
west[4] 33 36 : N
shift[4] 51 12 : N
reg[4] 35 12 : N
east[5] 54 36 : N
west[5] 29 48 : N
shift[5] 39 36 : N
reg[5] 43 24 : N
east[6] 57 48 : N
west[6] 34 48 : N
shift[6] 59 36 : N
reg[6] 41 48 : N
east[7] 67 48 : N
west[7] 62 48 : N
shift[7] 64 36 : N
reg[7] 56 12 : N
in_east[0] 74 6 : N /FIXED
in_west[0] -4 6 : N /FIXED
out[0] 4 -5 : N /FIXED
in_east[1] 74 14 : N /FIXED
in_west[1] -4 14 : N /FIXED
out[1] 13 -5 : N /FIXED
in_east[2] 74 22 : N /FIXED
in_west[2] -4 22 : N /FIXED
out[2] 22 -5 : N /FIXED
in_east[3] 74 30 : N /FIXED
in_west[3] -4 30 : N /FIXED
out[3] 31 -5 : N /FIXED
in_east[4] 74 38 : N /FIXED
in_west[4] -4 38 : N /FIXED
out[4] 40 -5 : N /FIXED
in_east[5] 74 46 : N /FIXED
in_west[5] -4 46 : N /FIXED
out[5] 49 -5 : N /FIXED
in_east[6] 74 54 : N /FIXED
in_west[6] -4 54 : N /FIXED
out[6] 58 -5 : N /FIXED
in_east[7] 74 62 : N /FIXED
in_west[7] -4 62 : N /FIXED
out[7] 67 -5 : N /FIXED
serial 3 75 : N /FIXED
enable_east 19 75 : N /FIXED
enable_west 35 75 : N /FIXED
enable_shift 51 75 : N /FIXED
clock 67 75 : N /FIXED
