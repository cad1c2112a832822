// What picolibc asks of a system: stdio over input and output, the end of the program, the heap, and the time.
#include <errno.h>
#include <stdio.h>
#include <sys/time.h>
#include <unistd.h>
#include "dc.h"

// How many bytes the heap leaves free below the stack.
#define STACK_ROOM 8192

static char shown[DC_OUTPUT_MOST];
static unsigned shown_count;
static unsigned char taken[DC_RECORD_MOST];
static long taken_count, taken_next;

// Shows what has been printed so far.
static int flush(FILE *file)
{
    (void)file;
    if (shown_count)
        dc_output(shown, shown_count);
    shown_count = 0;
    return 0;
}

// A line is shown whole, at its line feed, in pieces of 256 bytes where it is longer.
static int put(char c, FILE *file)
{
    shown[shown_count++] = c;
    if (c == '\n' || shown_count == sizeof shown)
        flush(file);
    return (unsigned char)c;
}

// The inputs are read as one text. What has been printed is shown before the guest waits for more of it.
static int get(FILE *file)
{
    while (taken_next == taken_count) {
        flush(file);
        long count = dc_input(taken, sizeof taken);
        if (count == DC_END_OF_INPUT)
            return _FDEV_EOF;
        if (count > 0) {
            taken_count = count;
            taken_next = 0;
        }
    }
    return taken[taken_next++];
}

static FILE input = FDEV_SETUP_STREAM(NULL, get, NULL, _FDEV_SETUP_READ);
static FILE output = FDEV_SETUP_STREAM(put, NULL, flush, _FDEV_SETUP_WRITE);
FILE *const stdin = &input;
FILE *const stdout = &output;
FILE *const stderr = &output;

// picolibc's own, up to 1.8 at least, drops a last line that has no line feed.
char *fgets(char *restrict line, int size, FILE *restrict file)
{
    int count = 0, c = 0;
    while (count < size - 1 && c != '\n' && (c = getc(file)) != EOF)
        line[count++] = (char)c;
    if (count == 0)
        return NULL;
    line[count] = 0;
    return line;
}

// exit comes here at last.
void _exit(int code)
{
    flush(stdout);
    dc_exit(code);
}

// The heap grows to 8 KiB below the stack as it stands, so it uses all of the memory that the plan gives.
void *sbrk(ptrdiff_t count)
{
    extern char __heap_start[];
    static char *end = __heap_start;
    char *was = end, *most = (char *)__builtin_frame_address(0) - STACK_ROOM;
    if (count > 0 ? most < end || count > most - end : count < __heap_start - end) {
        errno = ENOMEM;
        return (void *)-1;
    }
    end += count;
    return was;
}

// The clock of a turn is taken as microseconds since 1970.
int gettimeofday(struct timeval *time, void *zone)
{
    unsigned long long clock = dc_clock();
    (void)zone;
    time->tv_sec = clock / 1000000;
    time->tv_usec = clock % 1000000;
    return 0;
}

// abort and assert end by raise, which ends by _exit, but first ask for these.
pid_t getpid(void)
{
    return dc_own_number(0) + 1;
}

int kill(pid_t process, int signal)
{
    (void)process;
    _exit(128 + signal);
}
