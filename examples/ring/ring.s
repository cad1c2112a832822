# One of several guests in a ring: it sends the time that it read last to the guest behind it, reads the clock,
# waits for a message, shows it, and begins again.
again:
    addi x17,x0,8          # call 8: which guest this is, to x10, of how many, to x11
    ecall
    addi x10,x10,1         # the one behind it,
    blt x10,x11,send
    addi x10,x0,0          # and behind the last the first
send:
    addi x11,x0,512        # what stands at 512,
    addi x12,x0,4          # 4 bytes of it
    addi x17,x0,6          # call 6 sends
    ecall
    addi x17,x0,4          # call 4: the clock, to x10
    ecall
    sw x10,512(x0)
wait:
    addi x17,x0,7          # call 7 receives
    addi x10,x0,576        # to 576,
    addi x11,x0,64         # 64 bytes at most; how many, to x10
    ecall
    blt x10,x0,wait        # nothing was there
    addi x11,x10,0
    addi x10,x0,576
    addi x17,x0,2          # call 2 shows
    ecall
    jal x0,again
