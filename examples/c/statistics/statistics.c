// Reads whole numbers to the end of the input, and prints how many there are, the smallest, the largest, their mean and their median.
#include <stdio.h>
#include <stdlib.h>

static int by_size(const void *a, const void *b)
{
    long x = *(const long *)a, y = *(const long *)b;
    return (x > y) - (x < y);
}

static double mean_of(const long *numbers, int count)
{
    double sum = 0;
    for (int i = 0; i < count; i++)
        sum += numbers[i];
    return sum / count;
}

// Of numbers in order.
static double median_of(const long *numbers, int count)
{
    double low = numbers[(count - 1) / 2], high = numbers[count / 2];
    return (low + high) / 2;
}

static void stop(const char *why)
{
    puts(why);
    exit(1);
}

int main(void)
{
    long *numbers = NULL, number;
    int count = 0, room = 0, read;
    while ((read = scanf("%ld", &number)) == 1) {
        if (count == room) {
            room = room ? 2 * room : 16;
            numbers = realloc(numbers, room * sizeof *numbers);
            if (!numbers)
                stop("no memory for so many numbers");
        }
        numbers[count++] = number;
    }
    if (read != EOF)
        stop("the input has something that is no whole number");
    if (count == 0)
        stop("the input has no numbers");

    qsort(numbers, count, sizeof *numbers, by_size);
    printf("count %d\n", count);
    printf("smallest %ld\n", numbers[0]);
    printf("largest %ld\n", numbers[count - 1]);
    printf("mean %.3f\n", mean_of(numbers, count));
    printf("median %.1f\n", median_of(numbers, count));
    return 0;
}
