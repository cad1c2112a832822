# A guest that asks much and shows little: it adds up four times what the clock, a random word and a message tell it, shows the sum,
# sends it to the guest behind it, and begins again.
again:
    addi x5,x0,4           # so many rounds
round:
    addi x17,x0,4          # call 4: the clock, to x10
    ecall
    add x6,x6,x10
    addi x17,x0,5          # call 5: a random word, to x10
    ecall
    add x6,x6,x10
    addi x17,x0,7          # call 7 receives
    addi x10,x0,576        # to 576,
    addi x11,x0,64         # 64 bytes at most; how many, to x10
    ecall
    blt x10,x0,none        # nothing was there
    lw x10,576(x0)
    add x6,x6,x10
none:
    addi x5,x5,-1
    bne x5,x0,round
    sw x6,512(x0)
    addi x10,x0,512        # what stands at 512,
    addi x11,x0,4          # 4 bytes of it
    addi x17,x0,2          # call 2 shows
    ecall
    addi x17,x0,8          # call 8: which guest this is, to x10, of how many, to x11
    ecall
    addi x10,x10,1         # the one behind it,
    blt x10,x11,send
    addi x10,x0,0          # and behind the last the first
send:
    addi x11,x0,512
    addi x12,x0,4
    addi x17,x0,6          # call 6 sends
    ecall
    jal x0,again
