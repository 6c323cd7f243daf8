/* Preloaded into the program, it refuses what the plan says: a growth, the start of a thread, a read or a write. */
#define _GNU_SOURCE
#include "../growths.h"
#include "plan.h"
#include <pthread.h>
#include <sys/mman.h>
#include <unistd.h>

static struct plan *plan;
static ssize_t (*real_read)(int, void *, size_t);
static ssize_t (*real_write)(int, const void *, size_t);
static int (*real_start)(pthread_t *, const pthread_attr_t *, void *(*)(void *), void *);

__attribute__((constructor)) static void find(void)
{
    find_growths();
    real_read = dlsym(RTLD_NEXT, "read");
    real_write = dlsym(RTLD_NEXT, "write");
    real_start = dlsym(RTLD_NEXT, "pthread_create");
    void *shared = mmap(NULL, sizeof *plan, PROT_READ | PROT_WRITE, MAP_SHARED, PLAN_DESCRIPTOR, 0);
    close(PLAN_DESCRIPTOR);
    if (shared == MAP_FAILED)
        _exit(99);
    plan = shared;
}

/* Counts one more of a kind. Whether it is the one to refuse. */
static int refuses(enum kind kind)
{
    return plan && __atomic_add_fetch(&plan->counted[kind], 1, __ATOMIC_RELAXED) == plan->refused[kind];
}

static int refuses_growth(void)
{
    return refuses(GROWTH);
}

static size_t piece_of(size_t count)
{
    return plan && plan->piece && plan->piece < count ? plan->piece : count;
}

ssize_t read(int from, void *bytes, size_t count)
{
    if (refuses(READ)) {
        errno = EIO;
        return -1;
    }
    return real_read(from, bytes, piece_of(count));
}

/* What is said on standard error is counted by nobody. */
ssize_t write(int to, const void *bytes, size_t count)
{
    if (to != 1)
        return real_write(to, bytes, count);
    if (refuses(WRITE)) {
        errno = ENOSPC;
        return plan->takes_none ? 0 : -1;
    }
    return real_write(to, bytes, piece_of(count));
}

int pthread_create(pthread_t *thread, const pthread_attr_t *how, void *(*body)(void *), void *with)
{
    return refuses(START) ? EAGAIN : real_start(thread, how, body, with);
}
