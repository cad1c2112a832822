// What a guest without a C library has of one: an end. lib/memory.c has the functions that the compiler calls.
#include "dc.h"

void exit(int code)
{
    dc_exit(code);
}
