/* The growths of a program that is preloaded with this: each is refused where refuses_growth() says so, which the file that
   includes this has. */
#include <dlfcn.h>
#include <errno.h>
#include <stddef.h>
#include <stdlib.h>

static int refuses_growth(void);

static void *(*real_malloc)(size_t);
static void *(*real_calloc)(size_t, size_t);
static void *(*real_realloc)(void *, size_t);
static int (*real_memalign)(void **, size_t, size_t);
static void *(*real_aligned)(size_t, size_t);

static void find_growths(void)
{
    real_malloc = dlsym(RTLD_NEXT, "malloc");
    real_calloc = dlsym(RTLD_NEXT, "calloc");
    real_realloc = dlsym(RTLD_NEXT, "realloc");
    real_memalign = dlsym(RTLD_NEXT, "posix_memalign");
    real_aligned = dlsym(RTLD_NEXT, "aligned_alloc");
}

/* What a refused growth answers. */
static void *nothing(void)
{
    errno = ENOMEM;
    return NULL;
}

void *malloc(size_t size)
{
    if (!real_malloc)
        find_growths();
    return refuses_growth() ? nothing() : real_malloc(size);
}

void *realloc(void *at, size_t size)
{
    if (!real_realloc)
        find_growths();
    return refuses_growth() ? nothing() : real_realloc(at, size);
}

void *calloc(size_t count, size_t size)
{
    /* dlsym itself may ask for memory before the real one is known. */
    static char early[4096];
    static size_t used;
    if (!real_calloc) {
        void *at = early + used;
        used += (count * size + 15) / 16 * 16;
        return used <= sizeof early ? at : NULL;
    }
    return refuses_growth() ? nothing() : real_calloc(count, size);
}

int posix_memalign(void **at, size_t alignment, size_t size)
{
    return refuses_growth() ? ENOMEM : real_memalign(at, alignment, size);
}

void *aligned_alloc(size_t alignment, size_t size)
{
    return refuses_growth() ? nothing() : real_aligned(alignment, size);
}
