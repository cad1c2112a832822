// Guest 0 of two: sends each number that it reads to the other guest, and shows the factors that come back.
// It needs no C library.
#include "dc_text.h"

#define FACTORS 1

// The next input, without its line feed: how many bytes it has, or that there is no more.
static long read_line(char *room)
{
    long count;
    do
        count = dc_input(room, DC_RECORD_MOST);
    while (count == DC_NOTHING_YET);
    return count > 0 && room[count - 1] == '\n' ? count - 1 : count;
}

// The other guest's answer: how many bytes it has.
static long ask(const char *question, long length, char *answer)
{
    long count, from;
    dc_send(FACTORS, question, length);
    do
        count = dc_receive(answer, DC_RECORD_MOST, &from);
    while (count == DC_NOTHING_YET);
    return count;
}

static void put_bytes(const char *bytes, long count)
{
    for (long i = 0; i < count; i++)
        dc_put(bytes[i]);
}

int main(void)
{
    char number[DC_RECORD_MOST], factors[DC_RECORD_MOST];
    long length;
    while ((length = read_line(number)) != DC_END_OF_INPUT) {
        long count = length ? ask(number, length, factors) : 0;
        put_bytes(number, length);
        dc_put_text(" = ");
        put_bytes(factors, count);
        dc_put('\n');
    }
    ask(number, 0, factors);
    return 0;
}
