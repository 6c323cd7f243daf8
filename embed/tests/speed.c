/* How fast the library for C is, in the rows of the benchmark in crates/bench: `shared TAB T=threads len=items TAB c TAB calls a second`,
 * where each thread makes the prepared call `x = add_wuz x y` on two names of its own among 64 others; and a million integers set and got
 * beside memcpy: `array TAB row TAB c TAB gigabytes a second by the least of its rounds TAB and by the middle one`. */
#define _POSIX_C_SOURCE 200809L
#include <cvl.h>
#include <pthread.h>
#include <stdio.h>
#include <stdlib.h>
#include <string.h>
#include <time.h>

enum { OTHERS = 64, CALLS = 100000, REPEATS = 3, MILLION = 1000000, ROUNDS = 30, MOST_THREADS = 4 };

static void check(int32_t status)
{
    if (status < 0) {
        fprintf(stderr, "%s\n", cvl_status_text(status));
        exit(1);
    }
}

static double seconds(void)
{
    struct timespec now;
    clock_gettime(CLOCK_MONOTONIC, &now);
    return (double)now.tv_sec + (double)now.tv_nsec * 1e-9;
}

/* What a thread calls by, on what, and when it began and ended. */
struct worker {
    cvl_caller *caller;
    int number;
    size_t items;
    double began, ended;
};

static void set(cvl_caller *caller, char letter, int number, size_t items, int64_t step)
{
    char name[4] = {letter, (char)('0' + number / 10), (char)('0' + number % 10), 0};
    int64_t *all = malloc(items * sizeof *all);
    cvl_answer answer;
    if (!all)
        exit(1);
    for (size_t i = 0; i < items; i++)
        all[i] = (int64_t)i * step + 1;
    check(cvl_post_ints(caller, name, 3, all, items));
    check(cvl_wait(caller, &answer));
    free(all);
}

static void *work(void *given)
{
    struct worker *self = given;
    cvl_answer answer;
    uint64_t add;
    char line[32];
    set(self->caller, 'x', self->number, self->items, 0);
    set(self->caller, 'y', self->number, self->items, 7);
    for (int k = 0; k < OTHERS; k++)
        set(self->caller, 'f', k, self->items, 0);
    int length = snprintf(line, sizeof line, "x%02d = add_wuz x%02d y%02d", self->number, self->number, self->number);
    check(cvl_prepare(self->caller, line, (size_t)length, &add));
    self->began = seconds();
    for (int call = 0; call < CALLS; call++) {
        check(cvl_call_prepared(self->caller, add, &answer));
        if (answer.kind != CVL_DONE)
            exit(1);
    }
    self->ended = seconds();
    return NULL;
}

/* Calls a second of all threads together, from the first beginning to the last answer. */
static double rate(int threads, size_t items)
{
    cvl_caller callers[MOST_THREADS] = {CVL_CALLER_INIT};
    struct worker workers[MOST_THREADS];
    pthread_t started[MOST_THREADS];
    cvl_closed closed;
    check(cvl_open(1 << 22, callers, (size_t)threads));
    for (int k = 0; k < threads; k++) {
        workers[k] = (struct worker){&callers[k], k, items, 0, 0};
        if (pthread_create(&started[k], NULL, work, &workers[k]))
            exit(1);
    }
    double began = 1e300, ended = 0;
    for (int k = 0; k < threads; k++) {
        pthread_join(started[k], NULL);
        began = workers[k].began < began ? workers[k].began : began;
        ended = workers[k].ended > ended ? workers[k].ended : ended;
    }
    for (int k = 0; k < threads; k++)
        check(cvl_close(&callers[k], &closed));
    return threads * (double)CALLS / (ended - began);
}

/* What the rows of a million integers work on. */
struct arrays {
    cvl_caller caller;
    int64_t *from, *to;
    int64_t *kept[ROUNDS];
    int round;
};

static const size_t BYTES = MILLION * sizeof(int64_t);

static void copy_in_use(struct arrays *on)
{
    memcpy(on->to, on->from, BYTES);
    on->from[0] = on->to[MILLION - 1];
}

/* Into memory that is kept for good, as the history keeps what is set. */
static void copy_kept(struct arrays *on)
{
    if (!(on->kept[on->round] = malloc(BYTES)))
        exit(1);
    memcpy(on->kept[on->round], on->from, BYTES);
}

static void set_million(struct arrays *on)
{
    cvl_answer answer;
    check(cvl_post_ints(&on->caller, "v", 1, on->from, MILLION));
    check(cvl_wait(&on->caller, &answer));
}

static void ask(struct arrays *on)
{
    cvl_answer answer;
    check(cvl_post_get(&on->caller, "v", 1));
    check(cvl_wait(&on->caller, &answer));
}

/* Copied into an array. */
static void get(struct arrays *on)
{
    ask(on);
    if (cvl_ints(&on->caller, 0, on->to, MILLION) != MILLION || on->to[1] != 1)
        exit(1);
}

/* Read where they lie. */
static void get_at(struct arrays *on)
{
    const int64_t *there;
    ask(on);
    if (cvl_ints_at(&on->caller, 0, &there) != MILLION || there[MILLION - 1] != MILLION - 1)
        exit(1);
}

struct row {
    const char *name;
    void (*run)(struct arrays *on);
    double times[ROUNDS];
};

static int by_time(const void *one, const void *other)
{
    double a = *(const double *)one, b = *(const double *)other;
    return (a > b) - (a < b);
}

/* Runs these rows in turns, and prints gigabytes a second of each. */
static void time_rows(struct arrays *on, struct row *rows, size_t count)
{
    for (on->round = 0; on->round < ROUNDS; on->round++)
        for (size_t k = 0; k < count; k++) {
            double began = seconds();
            rows[k].run(on);
            rows[k].times[on->round] = seconds() - began;
        }
    for (size_t k = 0; k < count; k++) {
        qsort(rows[k].times, ROUNDS, sizeof(double), by_time);
        printf("array\t%s\tc\t%.2f\t%.2f\n", rows[k].name, (double)BYTES / rows[k].times[0] / 1e9, (double)BYTES / rows[k].times[ROUNDS / 2] / 1e9);
    }
}

/* A million integers: as many copied into memory that is kept, and set alone, one set behind another; then set and got in turns beside
 * memcpy from one array to another. */
static void arrays(void)
{
    struct arrays on = {.caller = CVL_CALLER_INIT, .from = malloc(BYTES), .to = malloc(BYTES)};
    struct row kept[] = {{.name = "memcpy kept", .run = copy_kept}}, alone[] = {{.name = "set alone", .run = set_million}};
    struct row turns[] = {{.name = "memcpy", .run = copy_in_use}, {.name = "set", .run = set_million}, {.name = "get", .run = get}, {.name = "get at", .run = get_at}};
    cvl_closed closed;
    if (!on.from || !on.to)
        exit(1);
    for (int i = 0; i < MILLION; i++)
        on.from[i] = i, on.to[i] = 0;
    check(cvl_open(1 << 22, &on.caller, 1));
    time_rows(&on, kept, 1);
    time_rows(&on, alone, 1);
    time_rows(&on, turns, sizeof turns / sizeof *turns);
    check(cvl_close(&on.caller, &closed));
    for (int round = 0; round < ROUNDS; round++)
        free(on.kept[round]);
    free(on.from);
    free(on.to);
}

int main(void)
{
    const size_t items[] = {2, 16, 256};
    const int threads[] = {1, 2, 4};
    for (size_t i = 0; i < 3; i++)
        for (size_t t = 0; t < 3; t++)
            for (int repeat = 0; repeat < REPEATS; repeat++)
                printf("shared\tT=%d len=%zu\tc\t%.0f\n", threads[t], items[i], rate(threads[t], items[i]));
    arrays();
    return 0;
}
