/* Refuses one growth of a program: preloaded, it counts what is allocated or grown between the lines "begin" and "end" that the
   program writes, and refuses the one of the number in REFUSE. Behind "end" it says in the file of descriptor 3 how many there
   were: not where the program ends, since one that leaves by _exit runs nothing then. With REFUSE_ALL it counts in all the run,
   and says so where the program ends. */
#define _GNU_SOURCE
#include "growths.h"
#include <stdio.h>
#include <string.h>
#include <unistd.h>

static ssize_t (*real_write)(int, const void *, size_t);

static long counted, refused = -1;
static int between;

__attribute__((constructor)) static void find(void)
{
    const char *number = getenv("REFUSE");
    find_growths();
    real_write = dlsym(RTLD_NEXT, "write");
    if (number)
        refused = atol(number);
    between = getenv("REFUSE_ALL") != NULL;
}

static int refuses_growth(void)
{
    return between && __atomic_add_fetch(&counted, 1, __ATOMIC_SEQ_CST) == refused;
}

static void say(void)
{
    char text[32];
    int length = snprintf(text, sizeof text, "%ld\n", counted);
    if (pwrite(3, text, (size_t)length, 0) < 0)
        _exit(99);
}

__attribute__((destructor)) static void leave(void)
{
    if (between)
        say();
}

ssize_t write(int to, const void *bytes, size_t count)
{
    if (between && count >= 3 && !memcmp(bytes, "end", 3)) {
        between = 0;
        say();
    }
    ssize_t written = real_write(to, bytes, count);
    if (count >= 5 && !memcmp(bytes, "begin", 5))
        between = 1;
    return written;
}
