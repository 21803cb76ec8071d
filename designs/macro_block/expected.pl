UCLA pl 1.0
adr0 21 30 : N
adr1 20 42 : N
adr2 23 54 : N
dec 26 42 : N
inv 45 18 : N
wen 41 18 : N
mux0 44 54 : N
mux1 51 66 : N
out0 54 42 : N
out1 55 30 : N
out2 55 54 : N
out3 51 18 : N
buf 58 66 : FS /FIXED
ram 34 30 : N /FIXED
pad_a0 14.5 25 : N /FIXED
pad_a1 14.5 45 : N /FIXED
pad_a2 14.5 65 : N /FIXED
pad_we 41.75 14.5 : N /FIXED
pad_by 63.25 80.5 : N /FIXED
pad_q0 68.5 28 : N /FIXED
pad_q1 68.5 40 : N /FIXED
pad_q2 68.5 52 : N /FIXED
pad_q3 68.5 64 : N /FIXED
