/* Memory refused at each place in turn. A call that finds none is answered by CVL_NO_MEMORY and has changed nothing, so it is made again;
 * in the end all is as with memory enough, and everything was given back. malloc, realloc and free of the library come here by the
 * linker's --wrap. */
#include <cvl.h>
#include <stdio.h>
#include <stdlib.h>
#include <string.h>

#define CHECK(fact)                                                                           \
    do {                                                                                      \
        if (!(fact)) {                                                                        \
            fprintf(stderr, "%s:%d: with growth %ld refused: %s\n", __FILE__, __LINE__, refused, #fact); \
            exit(1);                                                                          \
        }                                                                                     \
    } while (0)

void *__real_malloc(size_t size);
void *__real_realloc(void *block, size_t size);
void __real_free(void *block);

static long asked, refused, live;

void *__wrap_malloc(size_t size)
{
    if (++asked == refused)
        return NULL;
    void *block = __real_malloc(size);
    live += block != NULL;
    return block;
}

void *__wrap_realloc(void *block, size_t size)
{
    if (++asked == refused)
        return NULL;
    void *moved = __real_realloc(block, size);
    live += block == NULL && moved != NULL;
    return moved;
}

void __wrap_free(void *block)
{
    live -= block != NULL;
    __real_free(block);
}

/* Makes a call until it is answered, and each time it is not nothing has changed. */
static cvl_answer sure(cvl_caller *caller, int32_t (*leave)(cvl_caller *))
{
    cvl_answer answer;
    for (;;) {
        uint64_t before = cvl_look(caller);
        int32_t posted = leave(caller);
        if (posted == CVL_NO_MEMORY) {
            CHECK(cvl_poll(caller, &answer) == CVL_IDLE && cvl_look(caller) == before);
            continue;
        }
        CHECK(posted == CVL_OK);
        int32_t told = cvl_wait(caller, &answer);
        if (told == CVL_NO_MEMORY) {
            CHECK(cvl_look(caller) == before);
            continue;
        }
        CHECK(told == CVL_ANSWERED || told == CVL_ANSWERED_BLOCK);
        return answer;
    }
}

static int32_t set_a(cvl_caller *c) { const int64_t items[3] = {1, 2, 3}; return cvl_post_ints(c, "a", 1, items, 3); }
static int32_t set_b(cvl_caller *c) { const bool items[3] = {true, false, true}; return cvl_post_bools(c, "b", 1, items, 3); }
static int32_t set_s(cvl_caller *c) { const int64_t items[2] = {1, 2}; return cvl_post_lengths(c, "s", 1, items, 2); }
static int32_t block(cvl_caller *c) { return cvl_post_block(c, "c = add_wuz a a\nd = add_rez c s\nadd_ruz d", 41); }
static int32_t again(cvl_caller *c) { return cvl_post_prepared(c, 0); }
static int32_t sum(cvl_caller *c) { return cvl_post(c, "add_ruz c", 9); }
static int32_t get(cvl_caller *c) { return cvl_post_get(c, "s", 1); }

/* All of it once: how many growths were asked for. */
static long run(long at)
{
    cvl_caller callers[2];
    cvl_closed closed;
    cvl_answer answer;
    uint64_t number;
    size_t lengths[2];
    int32_t status;
    memset(callers, 0, sizeof callers);
    asked = 0, refused = at, live = 0;
    while ((status = cvl_open(100, callers, 2)) == CVL_NO_MEMORY)
        CHECK(live == 0);
    CHECK(status == CVL_OK);
    sure(&callers[0], set_a);
    sure(&callers[1], set_b);
    sure(&callers[0], set_s);
    answer = sure(&callers[1], block);
    CHECK(answer.replies == 3 && cvl_reply(&callers[1], 2, &answer) == CVL_OK && answer.value == 12);
    while ((status = cvl_prepare(&callers[0], "c = sel_wuz b c a", 17, &number)) == CVL_NO_MEMORY)
        ;
    CHECK(status == CVL_OK && number == 0);
    sure(&callers[0], again);
    answer = sure(&callers[0], sum);
    CHECK(answer.value == 10);
    sure(&callers[1], get);
    CHECK(cvl_lengths(&callers[1], 0, lengths, 2) == 2 && lengths[0] == 1 && lengths[1] == 2);
    CHECK(cvl_close(&callers[1], &closed) == CVL_LEFT_OTHERS);
    status = cvl_close(&callers[0], &closed);
    CHECK((status == CVL_CLOSED && closed.audited) || (status == CVL_NO_MEMORY && !closed.audited));
    CHECK(closed.history == 10);
    CHECK(live == 0);
    return asked;
}

int main(void)
{
    long all = run(0);
    for (long at = 1; at <= all + 5; at++)
        run(at);
    return 0;
}
