// Guest 1 of two: answers each number that it receives with its prime factors, and an empty message with an empty one, its last.
// It needs no C library.
#include "dc.h"

struct text {
    char bytes[DC_RECORD_MOST];
    unsigned length;
};

static unsigned number_in(const char *digits, long count)
{
    unsigned number = 0;
    for (long i = 0; i < count; i++)
        number = number * 10 + (unsigned)(digits[i] - '0');
    return number;
}

static void add(struct text *text, char c)
{
    if (text->length < sizeof text->bytes)
        text->bytes[text->length++] = c;
}

static void add_number(struct text *text, unsigned number)
{
    if (number > 9)
        add_number(text, number / 10);
    add(text, (char)('0' + number % 10));
}

static void add_factor(struct text *text, unsigned factor)
{
    if (text->length) {
        add(text, ' ');
        add(text, 'x');
        add(text, ' ');
    }
    add_number(text, factor);
}

static void add_factors(struct text *text, unsigned number)
{
    for (unsigned factor = 2; factor * factor <= number; factor++)
        for (; number % factor == 0; number /= factor)
            add_factor(text, factor);
    if (number > 1 || !text->length)
        add_factor(text, number);
}

int main(void)
{
    long count, asker;
    do {
        char question[DC_RECORD_MOST];
        struct text answer = {.length = 0};
        do
            count = dc_receive(question, sizeof question, &asker);
        while (count == DC_NOTHING_YET);
        if (count)
            add_factors(&answer, number_in(question, count));
        dc_send(asker, answer.bytes, answer.length);
    } while (count);
    return 0;
}
