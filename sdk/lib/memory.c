// The four functions that the compiler calls by itself. They go word by word where they can, since each instruction takes a turn.
#pragma GCC optimize("no-tree-loop-distribute-patterns") // or their loops would call them
#include <stddef.h>
#include <stdint.h>

static int are_words(const void *a, const void *b)
{
    return (((uintptr_t)a | (uintptr_t)b) & 3) == 0;
}

void *memset(void *to, int byte, size_t count)
{
    unsigned char *at = to;
    uint32_t word = (unsigned char)byte;
    word |= word << 8;
    word |= word << 16;
    for (; count && !are_words(at, at); count--)
        *at++ = (unsigned char)byte;
    for (; count >= 4; count -= 4, at += 4)
        *(uint32_t *)at = word;
    for (; count; count--)
        *at++ = (unsigned char)byte;
    return to;
}

// From the front on, so that `to` may overlap what is behind it.
static void *copy(void *to, const void *from, size_t count)
{
    unsigned char *at = to;
    const unsigned char *next = from;
    if (are_words(at, next))
        for (; count >= 4; count -= 4, at += 4, next += 4)
            *(uint32_t *)at = *(const uint32_t *)next;
    for (; count; count--)
        *at++ = *next++;
    return to;
}

void *memcpy(void *restrict to, const void *restrict from, size_t count)
{
    return copy(to, from, count);
}

void *memmove(void *to, const void *from, size_t count)
{
    unsigned char *at = to;
    const unsigned char *next = from;
    if (at <= next)
        return copy(to, from, count);
    while (count--)
        at[count] = next[count];
    return to;
}

int memcmp(const void *a, const void *b, size_t count)
{
    const unsigned char *left = a, *right = b;
    for (; count; count--, left++, right++)
        if (*left != *right)
            return *left - *right;
    return 0;
}
