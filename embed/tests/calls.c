/* Each function of cvl.h with good and bad arguments, short buffers, shut callers, two machines at once, and 64 callers. */
#define _POSIX_C_SOURCE 200809L
#include <cvl.h>
#include <pthread.h>
#include <stdio.h>
#include <stdlib.h>
#include <string.h>

#define CHECK(fact)                                                          \
    do {                                                                     \
        if (!(fact)) {                                                       \
            fprintf(stderr, "%s:%d: not so: %s\n", __FILE__, __LINE__, #fact); \
            exit(1);                                                         \
        }                                                                    \
    } while (0)

static int32_t post(cvl_caller *caller, const char *line)
{
    return cvl_post(caller, line, strlen(line));
}

static cvl_answer ask(cvl_caller *caller, const char *line)
{
    cvl_answer answer;
    CHECK(cvl_call(caller, line, strlen(line), &answer) == CVL_ANSWERED);
    return answer;
}

static cvl_answer wait_for(cvl_caller *caller, int32_t posted, int32_t wanted)
{
    cvl_answer answer;
    CHECK(posted == CVL_OK);
    CHECK(cvl_wait(caller, &answer) == wanted);
    return answer;
}

/* Every function answers that a caller is shut, and leaves it so. */
static void shut_callers(cvl_caller *caller)
{
    cvl_answer answer = {7, 7, 7, 7, 7, 7};
    cvl_served served;
    cvl_closed closed;
    uint64_t number = 5;
    char letter = 'x';
    int64_t items[2] = {1, 2};
    const int64_t *lent = items;
    bool bools[2] = {true, false};
    const bool *said = bools;
    size_t lengths[2] = {1, 2};
    CHECK(post(caller, "a = z 1") == CVL_SHUT);
    CHECK(cvl_post_block(caller, "a = z 1", 7) == CVL_SHUT);
    CHECK(cvl_post_ints(caller, "a", 1, items, 2) == CVL_SHUT);
    CHECK(cvl_post_bools(caller, "a", 1, bools, 2) == CVL_SHUT);
    CHECK(cvl_post_lengths(caller, "a", 1, items, 2) == CVL_SHUT);
    CHECK(cvl_post_get(caller, "a", 1) == CVL_SHUT);
    CHECK(cvl_prepare(caller, "a = z 1", 7, &number) == CVL_SHUT);
    CHECK(cvl_forget(caller) == CVL_SHUT);
    CHECK(cvl_post_prepared(caller, 0) == CVL_SHUT);
    CHECK(cvl_post_prepared_block(caller, &number, 1) == CVL_SHUT);
    CHECK(cvl_begin(caller, "a = z 1", 7, &answer) == CVL_SHUT && answer.kind == 7);
    CHECK(cvl_begin_prepared(caller, 0, &answer) == CVL_SHUT && answer.kind == 7);
    CHECK(cvl_serve(caller, &served) == CVL_SHUT);
    CHECK(cvl_poll(caller, &answer) == CVL_SHUT);
    CHECK(cvl_step(caller, &answer) == CVL_SHUT);
    CHECK(cvl_reply(caller, 0, &answer) == CVL_SHUT && answer.kind == 7);
    CHECK(cvl_ints(caller, 0, items, 2) == 0 && items[1] == 2);
    CHECK(cvl_bools(caller, 0, bools, 2) == 0);
    CHECK(cvl_lengths(caller, 0, lengths, 2) == 0);
    CHECK(cvl_ints_at(caller, 0, &lent) == 0 && !lent);
    CHECK(cvl_bools_at(caller, 0, &said) == 0 && !said);
    CHECK(cvl_text(caller, 0, &letter, 1, &number) == CVL_OK && number == 0 && letter == 'x');
    CHECK(cvl_look(caller) == UINT64_MAX);
    CHECK(cvl_close(caller, &closed) == CVL_SHUT);
}

static void opening(void)
{
    cvl_caller callers[65];
    cvl_closed closed;
    memset(callers, 0, sizeof callers);
    CHECK(cvl_open(1000, callers, 0) == CVL_BAD_CALLERS);
    CHECK(cvl_open(1000, callers, 65) == CVL_BAD_CALLERS);
    CHECK(cvl_open(0, callers, 1) == CVL_BAD_ROOM);
    CHECK(cvl_open(67108865, callers, 1) == CVL_BAD_ROOM);
    shut_callers(&callers[0]);
    CHECK(cvl_open(1000, callers + 1, 2) == CVL_OK);
    CHECK(cvl_open(1000, callers, 3) == CVL_NOT_SHUT);
    shut_callers(&callers[0]);
    CHECK(cvl_close(&callers[1], &closed) == CVL_LEFT_OTHERS);
    shut_callers(&callers[1]);
    CHECK(cvl_close(&callers[2], &closed) == CVL_CLOSED);
    CHECK(closed.history == 0 && closed.audited);
    CHECK(cvl_open(67108864, callers, 64) == CVL_OK);
    for (int i = 0; i < 64; i++)
        CHECK(cvl_close(&callers[i], &closed) == (i < 63 ? CVL_LEFT_OTHERS : CVL_CLOSED));
}

static void posting(cvl_caller *caller)
{
    cvl_answer answer;
    cvl_served served;
    CHECK(cvl_poll(caller, &answer) == CVL_IDLE);
    CHECK(post(caller, "a = zz 1") == CVL_BAD_CALL);
    CHECK(post(caller, "") == CVL_BAD_CALL);
    CHECK(cvl_poll(caller, &answer) == CVL_IDLE);
    CHECK(post(caller, "a = z 1 2 3") == CVL_OK);
    CHECK(post(caller, "a = z 9") == CVL_OCCUPIED);
    CHECK(cvl_post_get(caller, "a", 1) == CVL_OCCUPIED);
    CHECK(cvl_post_block(caller, "a = z 9", 7) == CVL_OCCUPIED);
    CHECK(cvl_poll(caller, &answer) == CVL_WAITING);
    CHECK(cvl_serve(caller, &served) == CVL_SERVED);
    CHECK(served.calls == 1 && served.waves == 1);
    CHECK(cvl_poll(caller, &answer) == CVL_ANSWERED);
    CHECK(answer.kind == CVL_DONE && answer.place == 0 && answer.replies == 1);
    CHECK(cvl_poll(caller, &answer) == CVL_IDLE);
    CHECK(cvl_serve(caller, &served) == CVL_SERVED && served.calls == 0);
    CHECK(cvl_look(caller) == 1);
    answer = ask(caller, "add_ruz a");
    CHECK(answer.kind == CVL_INT && answer.value == 6 && answer.place == 1);
    answer = ask(caller, "add_ruz b");
    CHECK(answer.kind == CVL_FAULT && answer.fault == CVL_FAULT_NO_VECTOR);
    CHECK(cvl_look(caller) == 3);
    for (uint32_t fault = 1; fault <= 10; fault++)
        CHECK(strcmp(cvl_fault_text(fault), "no fault") != 0);
    for (int32_t status = -12; status < 0; status++)
        CHECK(status == -11 || strcmp(cvl_status_text(status), "unknown") != 0);
}

/* A call that is begun with nobody else about is answered at once. */
static void beginning(cvl_caller *caller)
{
    cvl_answer answer;
    uint64_t before = cvl_look(caller), set;
    CHECK(cvl_begin(caller, "a = zz 1", 8, &answer) == CVL_BAD_CALL);
    CHECK(cvl_begin_prepared(caller, 0, &answer) == CVL_NOT_PREPARED);
    CHECK(cvl_begin(caller, "g = z 4 5", 9, &answer) == CVL_ANSWERED);
    CHECK(answer.kind == CVL_DONE && answer.place == before && answer.replies == 1);
    CHECK(cvl_poll(caller, &answer) == CVL_IDLE);
    CHECK(cvl_begin(caller, "add_ruz g", 9, &answer) == CVL_ANSWERED && answer.kind == CVL_INT && answer.value == 9);
    CHECK(cvl_begin(caller, "add_ruz nobody", 14, &answer) == CVL_ANSWERED && answer.kind == CVL_FAULT);
    CHECK(cvl_prepare(caller, "g = add_wuz g g", 15, &set) == CVL_OK && set == 0);
    CHECK(cvl_begin_prepared(caller, set, &answer) == CVL_ANSWERED && answer.place == before + 3);
    CHECK(cvl_call_prepared(caller, set, &answer) == CVL_ANSWERED && answer.place == before + 4);
    CHECK(cvl_forget(caller) == CVL_OK);
    CHECK(post(caller, "g = z 1") == CVL_OK);
    CHECK(cvl_begin(caller, "g = z 2", 7, &answer) == CVL_OCCUPIED);
    CHECK(cvl_wait(caller, &answer) == CVL_ANSWERED);
    CHECK(cvl_look(caller) == before + 6);
}

static void typed(cvl_caller *caller)
{
    cvl_answer answer;
    int64_t ints[4] = {-1, INT64_MAX, INT64_MIN, 5}, read[4] = {0, 0, 0, 42};
    bool bools[3] = {true, false, true}, truths[3] = {false, false, false};
    int64_t lengths[3] = {1, 0, 2}, bad[1] = {-1};
    const int64_t *lent = NULL;
    const bool *said = bools;
    size_t sizes[3] = {0, 0, 0};
    char text[5] = {'.', '.', '.', '.', '.'};
    uint64_t length = 0;
    CHECK(cvl_post_ints(caller, "A", 1, ints, 4) == CVL_BAD_NAME);
    CHECK(cvl_post_bools(caller, "", 0, bools, 3) == CVL_BAD_NAME);
    CHECK(cvl_post_lengths(caller, "1a", 2, lengths, 3) == CVL_BAD_NAME);
    CHECK(cvl_post_get(caller, "a name of 17 byte", 17) == CVL_BAD_NAME);
    wait_for(caller, cvl_post_ints(caller, "v", 1, ints, 4), CVL_ANSWERED);
    answer = wait_for(caller, cvl_post_get(caller, "v", 1), CVL_ANSWERED);
    CHECK(answer.kind == CVL_INTS && answer.count == 4);
    CHECK(cvl_ints(caller, 0, read, 3) == 4);
    CHECK(read[0] == -1 && read[1] == INT64_MAX && read[2] == INT64_MIN && read[3] == 42);
    CHECK(cvl_ints(caller, 0, read, 0) == 4);
    CHECK(cvl_text(caller, 0, text, 4, &length) == CVL_OK && length == 47 && memcmp(text, "z -1", 4) == 0 && text[4] == '.');
    CHECK(cvl_text(caller, 1, text, 4, &length) == CVL_OK && length == 0);
    CHECK(cvl_ints(caller, 1, read, 4) == 0);
    CHECK(cvl_ints_at(caller, 0, &lent) == 4 && lent[0] == -1 && lent[1] == INT64_MAX && lent[2] == INT64_MIN && lent[3] == 5);
    CHECK(cvl_bools_at(caller, 0, &said) == 0 && !said);
    CHECK(cvl_ints_at(caller, 1, &lent) == 0 && !lent);
    CHECK(cvl_bools(caller, 0, truths, 3) == 0 && cvl_lengths(caller, 0, sizes, 3) == 0);
    wait_for(caller, cvl_post_bools(caller, "t", 1, bools, 3), CVL_ANSWERED);
    answer = wait_for(caller, cvl_post_get(caller, "t", 1), CVL_ANSWERED);
    CHECK(answer.kind == CVL_BOOLS && answer.count == 3 && cvl_bools(caller, 0, truths, 3) == 3);
    CHECK(truths[0] && !truths[1] && truths[2]);
    CHECK(cvl_bools_at(caller, 0, &said) == 3 && said[0] && !said[1] && said[2]);
    answer = wait_for(caller, cvl_post_lengths(caller, "s", 1, lengths, 3), CVL_ANSWERED_BLOCK);
    CHECK(answer.replies == 2 && cvl_reply(caller, 1, &answer) == CVL_OK && answer.kind == CVL_DONE);
    answer = wait_for(caller, cvl_post_get(caller, "s", 1), CVL_ANSWERED);
    CHECK(answer.kind == CVL_SEGMENTS && answer.count == 3 && cvl_lengths(caller, 0, sizes, 3) == 3);
    CHECK(sizes[0] == 1 && sizes[1] == 0 && sizes[2] == 2);
    wait_for(caller, cvl_post_lengths(caller, "s", 1, bad, 1), CVL_ANSWERED_BLOCK);
    CHECK(cvl_reply(caller, 1, &answer) == CVL_OK && answer.kind == CVL_FAULT && answer.fault == CVL_FAULT_BAD_SEGMENTS);
    wait_for(caller, cvl_post_ints(caller, "none", 4, ints, 0), CVL_ANSWERED);
    answer = ask(caller, "len_fov none");
    CHECK(answer.kind == CVL_INT && answer.value == 0);
}

static void blocks(cvl_caller *caller)
{
    cvl_answer answer;
    const char *text = "p = z 1 2\nq = add_wuz p p\nadd_ruz q\nadd_ruz nobody";
    char *many = malloc(1026 * 8);
    uint64_t before = cvl_look(caller);
    CHECK(many != NULL);
    CHECK(cvl_post_block(caller, "p = z 1\nq = what p\n", 19) == CVL_BAD_CALL);
    CHECK(cvl_post_block(caller, "", 0) == CVL_BAD_COUNT);
    many[0] = 0;
    for (int i = 0; i < 1025; i++)
        memcpy(many + 8 * i, "p = z 1\n", 8);
    CHECK(cvl_post_block(caller, many, 1025 * 8) == CVL_BAD_COUNT);
    wait_for(caller, cvl_post_block(caller, many, 1024 * 8), CVL_ANSWERED_BLOCK);
    free(many);
    answer = wait_for(caller, cvl_post_block(caller, text, strlen(text)), CVL_ANSWERED_BLOCK);
    CHECK(answer.replies == 4 && answer.place == before + 1024 && answer.kind == CVL_DONE);
    CHECK(cvl_reply(caller, 2, &answer) == CVL_OK && answer.kind == CVL_INT && answer.value == 6);
    CHECK(cvl_reply(caller, 3, &answer) == CVL_OK && answer.kind == CVL_FAULT);
    answer.kind = 77;
    CHECK(cvl_reply(caller, 4, &answer) == CVL_NO_REPLY && answer.kind == 77);
    CHECK(cvl_look(caller) == before + 1028);
}

static void prepared(cvl_caller *caller)
{
    cvl_answer answer;
    uint64_t set, add, both[2], wrong[2];
    CHECK(cvl_prepare(caller, "x = what", 8, &set) == CVL_BAD_CALL);
    CHECK(cvl_prepare(caller, "x = z 1", 7, &set) == CVL_OK && set == 0);
    CHECK(cvl_prepare(caller, "x = add_wuz x x", 15, &add) == CVL_OK && add == 1);
    CHECK(cvl_post_prepared(caller, 2) == CVL_NOT_PREPARED);
    wait_for(caller, cvl_post_prepared(caller, set), CVL_ANSWERED);
    for (int i = 0; i < 5; i++)
        wait_for(caller, cvl_post_prepared(caller, add), CVL_ANSWERED);
    answer = ask(caller, "add_ruz x");
    CHECK(answer.value == 32);
    both[0] = set, both[1] = add, wrong[0] = set, wrong[1] = 9;
    CHECK(cvl_post_prepared_block(caller, both, 0) == CVL_BAD_COUNT);
    CHECK(cvl_post_prepared_block(caller, wrong, 2) == CVL_NOT_PREPARED);
    wait_for(caller, cvl_post_prepared_block(caller, both, 2), CVL_ANSWERED_BLOCK);
    answer = ask(caller, "add_ruz x");
    CHECK(answer.value == 2);
    CHECK(cvl_forget(caller) == CVL_OK && cvl_post_prepared(caller, set) == CVL_NOT_PREPARED);
}

static void *add_up(void *mine)
{
    for (int i = 0; i < 50; i++)
        ask(mine, "sum = add_wuz sum one");
    return NULL;
}

static void many_callers(void)
{
    cvl_caller callers[64];
    pthread_t threads[64];
    cvl_closed closed;
    cvl_answer answer;
    memset(callers, 0, sizeof callers);
    CHECK(cvl_open(1000, callers, 64) == CVL_OK);
    ask(&callers[0], "sum = z 0");
    ask(&callers[63], "one = z 1");
    for (int i = 0; i < 64; i++)
        CHECK(pthread_create(&threads[i], NULL, add_up, &callers[i]) == 0);
    for (int i = 0; i < 64; i++)
        pthread_join(threads[i], NULL);
    answer = ask(&callers[5], "add_ruz sum");
    CHECK(answer.value == 3200);
    for (int i = 0; i < 63; i++)
        CHECK(cvl_close(&callers[i], &closed) == CVL_LEFT_OTHERS);
    CHECK(cvl_close(&callers[63], &closed) == CVL_CLOSED);
    CHECK(closed.history == 3203 && closed.audited);
}

int main(void)
{
    cvl_caller shut = CVL_CALLER_INIT, one = CVL_CALLER_INIT, other = CVL_CALLER_INIT;
    cvl_closed closed;
    shut_callers(&shut);
    shut_callers(NULL);
    opening();
    CHECK(cvl_open(100000, &one, 1) == CVL_OK && cvl_open(10, &other, 1) == CVL_OK);
    posting(&one);
    beginning(&one);
    ask(&other, "a = z 7");
    typed(&one);
    blocks(&one);
    prepared(&one);
    CHECK(ask(&other, "add_ruz a").value == 7 && ask(&one, "add_ruz a").value == 6);
    CHECK(ask(&other, "b = alo_foz 11").fault == CVL_FAULT_NO_ROOM);
    CHECK(post(&other, "a = z 8") == CVL_OK);
    CHECK(cvl_close(&other, &closed) == CVL_CLOSED && closed.history == 3 && closed.audited);
    CHECK(cvl_close(&one, &closed) == CVL_CLOSED && closed.audited);
    shut_callers(&one);
    many_callers();
    return 0;
}
