/* A work-sharing loop of a runtime: tasks in a queue, a few worker threads, and no thread that waits. A task that has left a call goes
 * back into the queue; when a worker takes it up again it serves whatever was left, its own call and those of others, and asks. So the
 * machine is served by whoever comes by. Each task adds its number to a sum a few times. */
#define _POSIX_C_SOURCE 200809L
#define CVL_NO_WAIT
#include <cvl.h>
#include <pthread.h>
#include <stdio.h>
#include <stdlib.h>
#include <string.h>

enum { TASKS = 16, WORKERS = 4, ROUNDS = 25 };

typedef struct task {
    cvl_caller *caller;
    int number, left;
    bool posted;
    uint64_t prepared;
} task;

static pthread_mutex_t lock = PTHREAD_MUTEX_INITIALIZER;
static task *queue[TASKS];
static int queued, unfinished = TASKS;

static void put(task *t)
{
    pthread_mutex_lock(&lock);
    queue[queued++] = t;
    pthread_mutex_unlock(&lock);
}

/* The oldest task, or NULL; whether all are done. */
static task *take(bool *over)
{
    task *t = NULL;
    pthread_mutex_lock(&lock);
    *over = unfinished == 0;
    if (queued > 0) {
        t = queue[0];
        memmove(queue, queue + 1, (size_t)--queued * sizeof *queue);
    }
    pthread_mutex_unlock(&lock);
    return t;
}

static void check(int32_t status)
{
    if (status < 0) {
        fprintf(stderr, "%s\n", cvl_status_text(status));
        exit(1);
    }
}

/* One turn of a task: it leaves its next call, or serves and asks. Whether it goes on. */
static bool turn(task *t)
{
    cvl_answer answer;
    if (!t->posted) {
        if (t->left == 0)
            return false;
        check(cvl_post_prepared(t->caller, t->prepared));
        t->posted = true;
        return true;
    }
    int32_t told = cvl_step(t->caller, &answer);
    check(told);
    if (told == CVL_ANSWERED) {
        if (answer.kind == CVL_FAULT) {
            fprintf(stderr, "%s\n", cvl_fault_text(answer.fault));
            exit(1);
        }
        t->posted = false;
        t->left--;
    }
    return true;
}

static void *work(void *nothing)
{
    (void)nothing;
    for (;;) {
        bool over;
        task *t = take(&over);
        if (over)
            return NULL;
        if (!t)
            continue;
        if (turn(t)) {
            put(t);
        } else {
            pthread_mutex_lock(&lock);
            unfinished--;
            pthread_mutex_unlock(&lock);
        }
    }
}

/* Leaves a call and steps until it is answered. */
static void run(cvl_caller *caller, const char *line, cvl_answer *answer)
{
    int32_t told = CVL_WAITING;
    check(cvl_post(caller, line, strlen(line)));
    while (told == CVL_WAITING)
        check(told = cvl_step(caller, answer));
}

int main(void)
{
    cvl_caller callers[TASKS] = {CVL_CALLER_INIT};
    task tasks[TASKS];
    pthread_t workers[WORKERS];
    cvl_answer answer;
    check(cvl_open(1000, callers, TASKS));
    run(&callers[0], "sum = z 0", &answer);
    for (int i = 0; i < TASKS; i++) {
        char line[64];
        const char *add = line;
        snprintf(line, sizeof line, "t%d = z %d", i, i);
        run(&callers[i], line, &answer);
        snprintf(line, sizeof line, "sum = add_wuz sum t%d", i);
        tasks[i] = (task){&callers[i], i, ROUNDS, false, 0};
        check(cvl_prepare(&callers[i], add, strlen(add), &tasks[i].prepared));
        put(&tasks[i]);
    }
    for (int i = 0; i < WORKERS; i++)
        if (pthread_create(&workers[i], NULL, work, NULL) != 0)
            return 1;
    for (int i = 0; i < WORKERS; i++)
        pthread_join(workers[i], NULL);
    run(&callers[0], "add_ruz sum", &answer);
    printf("sum %lld\n", (long long)answer.value);
    for (int i = 0; i < TASKS; i++) {
        cvl_closed closed;
        int32_t status = cvl_close(&callers[i], &closed);
        check(status);
        if (status == CVL_CLOSED)
            printf("history %llu, audit %s\n", (unsigned long long)closed.history, closed.audited ? "ok" : "wrong");
    }
    return 0;
}
