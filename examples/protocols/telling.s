# A guest that asks little and shows much: it takes a message, if there is one, counts on from it, shows twelve numbers, and begins again;
# each eighth time it reads the clock before that, and sends what it has to the guest behind it.
again:
    addi x17,x0,7          # call 7 receives
    addi x10,x0,576        # to 576,
    addi x11,x0,64         # 64 bytes at most; how many, to x10
    ecall
    blt x10,x0,none        # nothing was there
    lw x6,576(x0)
none:
    addi x5,x0,12          # so many numbers
show:
    addi x6,x6,1
    sw x6,512(x0)
    addi x10,x0,512        # what stands at 512,
    addi x11,x0,4          # 4 bytes of it
    addi x17,x0,2          # call 2 shows
    ecall
    addi x5,x5,-1
    bne x5,x0,show
    addi x7,x7,1
    andi x10,x7,7
    bne x10,x0,again
    addi x17,x0,4          # call 4: the clock, to x10
    ecall
    add x6,x6,x10
    sw x6,512(x0)
    addi x17,x0,8          # call 8: which guest this is, to x10, of how many, to x11
    ecall
    addi x10,x10,1         # the one behind it,
    blt x10,x11,send
    addi x10,x0,0          # and behind the last the first
send:
    addi x11,x0,512
    addi x12,x0,4
    addi x17,x0,6          # call 6 sends
    ecall
    jal x0,again
