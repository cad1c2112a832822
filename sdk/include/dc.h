/// The calls of a guest, in plain C: this header needs no library and no other file.
///
/// A call is one `ecall`, and takes one turn. Its number goes in x17 (a7) and its arguments in x10, x11 and x12 (a0, a1, a2); what it
/// answers comes back in x10 (a0), and a second answer in x11 (a1). No other register changes. Bytes are handed over in the guest's
/// memory, at an address that the guest gives; they have to lie within that memory.
#ifndef DC_H
#define DC_H

/// What `dc_input` and `dc_receive` answer where there is nothing yet: ask again.
#define DC_NOTHING_YET (-1)

/// What `dc_input` answers where all inputs have been handed over.
#define DC_END_OF_INPUT (-2)

/// What a call answers whose arguments are refused. Nothing has been shown, sent or handed over then.
#define DC_BAD_ARGUMENT (-3)

/// What a call of a number that is none of these is answered.
#define DC_UNKNOWN_CALL (-9)

/// The most bytes that one `dc_output` shows.
#define DC_OUTPUT_MOST 256

/// The most bytes of an input and of a message, and the least room that a guest gives for one.
#define DC_RECORD_MOST 64

/// Makes the call of that number: the arguments are x10, x11 and x12, and x10 is answered. Where `second` is no null pointer, it gets
/// x11. The functions below make each call that there is; this one is for them, and to try numbers that are none.
static inline long dc_call(long number, long first, long next, long last, long *second)
{
    register long x10 __asm__("a0") = first;
    register long x11 __asm__("a1") = next;
    register long x12 __asm__("a2") = last;
    register long x17 __asm__("a7") = number;
    __asm__ volatile("ecall" : "+r"(x10), "+r"(x11) : "r"(x12), "r"(x17) : "memory");
    if (second)
        *second = x11;
    return x10;
}

/// Call 1: ends the guest. `code` (x10) is shown in the line `end P K CODE` as a number from 0 to 4,294,967,295. Does not return.
static inline void __attribute__((noreturn)) dc_exit(long code)
{
    for (;;)
        dc_call(1, code, 0, 0, 0);
}

/// Call 2: shows `count` bytes (x11) from `bytes` (x10) on: one line `out P K HEX`. At most 256 bytes, and none is allowed.
/// Answers `count`; -3 where there are more than 256, or some lie past the memory.
static inline long dc_output(const void *bytes, unsigned long count)
{
    return dc_call(2, (long)bytes, (long)count, 0, 0);
}

/// Call 3: asks for the next input, which is written to `room` (x10). `size` (x11) is how many bytes of room there are, at least 64.
/// Answers how many bytes the input has, 0 to 64; -1 where there is none yet (the turn's word is even: ask again); -2 where all have
/// been handed over; -3 where `size` is below 64, or the room reaches past the memory. Bytes of the room behind the input stay.
static inline long dc_input(void *room, unsigned long size)
{
    return dc_call(3, (long)room, (long)size, 0, 0);
}

/// Call 4: asks for the clock, the number C of the turn's line `P W C`, which never falls. Answers all 64 bits: the call has the low
/// word in x10 and the high one in x11. What the clock counts is the schedule's affair.
static inline unsigned long long dc_clock(void)
{
    long high;
    unsigned long low = (unsigned long)dc_call(4, 0, 0, 0, &high);
    return (unsigned long long)(unsigned long)high << 32 | low;
}

/// Call 5: asks for a random word, the number W of the turn's line `P W C`. Answers that word (x10).
static inline unsigned long dc_random(void)
{
    return (unsigned long)dc_call(5, 0, 0, 0, 0);
}

/// Call 6: sends the guest of number `to` (x10) the `count` bytes (x12) from `bytes` (x11) on, at most 64. Answers `count`; -3 where
/// there is no such guest or it is the sender itself, where there are more than 64 bytes, or some lie past the memory. With one guest
/// every send answers -3.
static inline long dc_send(long to, const void *bytes, unsigned long count)
{
    return dc_call(6, to, (long)bytes, (long)count, 0);
}

/// Call 7: asks for the next message, which is written to `room` (x10), of `size` bytes (x11), at least 64. Answers how many bytes the
/// message has, and `*from` gets its sender's number (x11); -1 where none has come yet: ask again; -3 where `size` is below 64, or the
/// room reaches past the memory. `*from` tells nothing where the answer is negative. With one guest no message comes.
static inline long dc_receive(void *room, unsigned long size, long *from)
{
    return dc_call(7, (long)room, (long)size, 0, from);
}

/// Call 8: asks for the guest's own number (x10), which counts from 0; `*guests`, where it is no null pointer, gets how many guests
/// there are (x11).
static inline long dc_own_number(long *guests)
{
    return dc_call(8, 0, 0, 0, guests);
}

#endif
