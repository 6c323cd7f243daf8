/* Four threads share one machine. Each adds a vector to one total, a hundred times, by a call that it prepared once. What is printed is the same, whatever came between what. */
#define _POSIX_C_SOURCE 200809L
#include <cvl.h>
#include <pthread.h>
#include <stdio.h>
#include <stdlib.h>
#include <string.h>

enum { THREADS = 4, ROUNDS = 100 };

static void stop(const char *what, int32_t status)
{
    fprintf(stderr, "%s: %s\n", what, cvl_status_text(status));
    exit(1);
}

/* Waits until what was left is answered, with no fault. */
static cvl_answer done(cvl_caller *caller, int32_t posted)
{
    cvl_answer answer;
    if (posted != CVL_OK)
        stop("post", posted);
    int32_t told = cvl_wait(caller, &answer);
    if (told != CVL_ANSWERED)
        stop("wait", told);
    if (answer.kind == CVL_FAULT) {
        fprintf(stderr, "%s\n", cvl_fault_text(answer.fault));
        exit(1);
    }
    return answer;
}

static void *work(void *mine)
{
    cvl_caller *caller = mine;
    uint64_t number;
    int64_t items[2] = {1, 2};
    done(caller, cvl_post_ints(caller, "unit", 4, items, 2));
    const char *add = "total = add_wuz total unit";
    int32_t prepared = cvl_prepare(caller, add, strlen(add), &number);
    if (prepared != CVL_OK)
        stop("prepare", prepared);
    for (int round = 0; round < ROUNDS; round++)
        done(caller, cvl_post_prepared(caller, number));
    return NULL;
}

int main(void)
{
    cvl_caller callers[THREADS] = {CVL_CALLER_INIT};
    pthread_t threads[THREADS];
    int64_t total[2] = {0, 0};
    int32_t opened = cvl_open(1000, callers, THREADS);
    if (opened != CVL_OK)
        stop("open", opened);
    done(&callers[0], cvl_post_ints(&callers[0], "total", 5, total, 2));
    for (int i = 0; i < THREADS; i++)
        if (pthread_create(&threads[i], NULL, work, &callers[i]) != 0)
            return 1;
    for (int i = 0; i < THREADS; i++)
        pthread_join(threads[i], NULL);
    done(&callers[0], cvl_post_get(&callers[0], "total", 5));
    cvl_ints(&callers[0], 0, total, 2);
    printf("total %lld %lld\n", (long long)total[0], (long long)total[1]);
    for (int i = 0; i < THREADS; i++) {
        cvl_closed closed;
        int32_t status = cvl_close(&callers[i], &closed);
        if (status < 0)
            stop("close", status);
        if (status == CVL_CLOSED)
            printf("history %llu, audit %s\n", (unsigned long long)closed.history, closed.audited ? "ok" : "wrong");
    }
    return 0;
}
