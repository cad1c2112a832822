/// Lines of text for guests without a C library: a line is put together piece by piece, and shown by one `dc_output`.
#ifndef DC_TEXT_H
#define DC_TEXT_H

#include "dc.h"

static char dc_line[DC_OUTPUT_MOST];
static unsigned dc_line_length;

/// Shows what has been put together so far, and begins anew. Nothing put together shows nothing.
static inline void dc_show(void)
{
    if (dc_line_length)
        dc_output(dc_line, dc_line_length);
    dc_line_length = 0;
}

/// Adds a character, and shows the line where it is full or the character is a line feed.
static inline void dc_put(char c)
{
    dc_line[dc_line_length++] = c;
    if (c == '\n' || dc_line_length == sizeof dc_line)
        dc_show();
}

/// Adds a text.
static inline void dc_put_text(const char *text)
{
    while (*text)
        dc_put(*text++);
}

/// Adds a number in decimal digits. There is no division instruction, so powers of ten are taken off.
static inline void dc_put_number(unsigned long number)
{
    static const unsigned long powers[] = {1000000000, 100000000, 10000000, 1000000, 100000, 10000, 1000, 100, 10, 1};
    int begun = 0;
    for (int i = 0; i < 10; i++) {
        char digit = '0';
        for (; number >= powers[i]; number -= powers[i])
            digit++;
        begun = begun || digit != '0' || i == 9;
        if (begun)
            dc_put(digit);
    }
}

#endif
