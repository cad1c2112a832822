// Counts the primes below 7000 by the sieve of Eratosthenes, and shows at each 1000 how many there are up to there.
// It needs no C library.
#include "dc_text.h"

#define LIMIT 7000

static char is_composite[LIMIT];

static void cross_out_multiples(unsigned prime)
{
    for (unsigned number = prime + prime; number < LIMIT; number += prime)
        is_composite[number] = 1;
}

static void show_progress(unsigned below, unsigned count)
{
    dc_put_text("below ");
    dc_put_number(below);
    dc_put_text(": ");
    dc_put_number(count);
    dc_put_text(" primes\n");
}

int main(void)
{
    unsigned count = 0, next_shown = 1000;
    for (unsigned number = 2; number < LIMIT; number++) {
        if (number == next_shown) {
            show_progress(number, count);
            next_shown += 1000;
        }
        if (!is_composite[number]) {
            count++;
            cross_out_multiples(number);
        }
    }
    show_progress(LIMIT, count);
    return 0;
}
