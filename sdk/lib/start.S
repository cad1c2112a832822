# Start of a C guest, with or without a C library. The machine has set x2, the stack, to 16 below the memory's size and all other
# registers to 0, and memory that the file does not fill is 0.
    .section .init, "ax"
    .globl _start
_start:
    .option push
    .option norelax
    la gp, __global_pointer$
    la tp, __thread_data        # a library may keep errno and the like as thread-local data
    .option pop
    call main                   # a0 and a1, its argc and argv, are 0
    call exit                   # with what main returned
