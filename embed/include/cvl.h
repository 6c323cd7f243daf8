/* Cilweddor, the shared vector machine, for C99 and C++.
 *
 * Link libcvl.a or libcvl.so. docs/EMBEDDING.md says how to build them, what is proved and what C owes.
 *
 * A machine has 1 to 64 callers. A thread holds a caller and gives it to one call at a time; two callers may be in calls at once, and
 * a caller may go to another thread by whatever orders the two: a lock, a thread's start or join, a sequentially consistent atomic.
 * A caller leaves a call or a block (cvl_post and its kin), any caller serves what was left (cvl_serve), and the caller asks what
 * became of its own (cvl_poll); or it begins a call (cvl_begin), which runs at once where nobody else has the book. No function waits.
 * None may be called from a signal handler, or in a child that was forked from a process with threads.
 *
 * Who owns what: a caller owns its part of the machine until it is closed; close every caller, the last one closes the machine.
 * What is posted is copied before the function returns. What is read is copied out, but for cvl_ints_at and cvl_bools_at, which show it
 * in place. The book is the memory and its history; one caller has it at a time.
 *
 * A caller that is NULL is answered as one that is shut; no other pointer may be NULL, not even for no items. A length is in items; texts
 * need no byte 0 at the end.
 */
#ifndef CVL_H
#define CVL_H

#include <stdbool.h>
#include <stddef.h>
#include <stdint.h>

#ifdef __cplusplus
extern "C" {
#endif

/* The version of this header: the first number changes where programs have to, or have to be compiled anew. */
#define CVL_VERSION_MAJOR 2
#define CVL_VERSION_MINOR 0

/* A caller, opaque. One that is zeroed is shut, and every function answers CVL_SHUT to it; so is one that was closed. Never copy an
 * open one: two copies are one caller, and a call of a copy whose other was closed is not noticed. Each call writes to its caller, so
 * callers are 64 bytes apart: threads whose callers lie in one array do not take one line of memory from each other. */
typedef struct cvl_caller {
    uint64_t state;
    void *port;
    uint64_t apart[6];
} cvl_caller;

#ifdef __cplusplus
#define CVL_CALLER_INIT {0, nullptr, {0}}
#else
#define CVL_CALLER_INIT {0, NULL, {0}}
#endif

/* What functions answer. Below 0: nothing was done. */
enum {
    CVL_OK = 0,
    CVL_NO_MEMORY = -1,    /* memory was wanted */
    CVL_SHUT = -2,         /* the caller is not open: zeroed, or closed */
    CVL_BAD_CALL = -3,     /* a line that is no call */
    CVL_BAD_NAME = -4,     /* a name is 1 to 16 of a-z, 0-9 and _, the first a letter */
    CVL_BAD_COUNT = -5,    /* a block has 1 to 1,024 calls */
    CVL_NOT_PREPARED = -6, /* no call of this number is prepared */
    CVL_OCCUPIED = -7,     /* the caller has left a call or a block already: poll first */
    CVL_BAD_CALLERS = -8,  /* a machine has 1 to 64 callers */
    CVL_BAD_ROOM = -9,     /* no lawful room: 1 to 67,108,864 items */
    CVL_NOT_SHUT = -10,    /* cvl_open: one of the callers is open */
    CVL_NO_REPLY = -12     /* there is no reply of this number */
};

/* What cvl_poll and cvl_step answer; also CVL_SHUT, and CVL_NO_MEMORY where the call, or each call of the block, stands in no history
 * and nothing is left. */
enum {
    CVL_IDLE = 0,    /* nothing was left */
    CVL_WAITING = 1, /* nothing yet */
    CVL_ANSWERED = 2,
    CVL_ANSWERED_BLOCK = 3
};

/* What cvl_serve answers; also CVL_SHUT. */
enum { CVL_BUSY = 0, CVL_SERVED = 1 };

/* What cvl_close answers; also CVL_SHUT. CVL_NO_MEMORY: the machine is closed and the length of its history told, but for want of
 * memory it was not audited. */
enum {
    CVL_CLOSED = 0,      /* it was the last caller: the machine is gone */
    CVL_LEFT_OTHERS = 1, /* the caller is closed, others of its machine are open */
    CVL_UNFINISHED = 2   /* it was the last caller, and the book is with a thread that ended within a call: history and memory are lost */
};

/* Kinds of reply. */
enum { CVL_DONE = 0, CVL_INT = 1, CVL_BOOL = 2, CVL_INTS = 3, CVL_BOOLS = 4, CVL_SEGMENTS = 5, CVL_FAULT = 6 };

/* Faults: why a call was not done. Numbers as in docs/PROFILE.md. */
enum {
    CVL_FAULT_NO_VECTOR = 1,
    CVL_FAULT_WRONG_TYPE = 2,
    CVL_FAULT_WRONG_LENGTH = 3,
    CVL_FAULT_BAD_SEGMENTS = 4,
    CVL_FAULT_BAD_INDEX = 5,
    CVL_FAULT_ZERO_DIVISOR = 6,
    CVL_FAULT_BAD_SHIFT = 7,
    CVL_FAULT_TOO_LONG = 8,
    CVL_FAULT_NO_ROOM = 9,
    CVL_FAULT_TOO_MANY_NAMES = 10
};

typedef struct cvl_answer {
    uint32_t kind;    /* CVL_DONE to CVL_FAULT */
    uint32_t fault;   /* 1 to 10 where kind is CVL_FAULT, else 0 */
    int64_t value;    /* the number, or 1 for true; else 0 */
    uint64_t count;   /* how many items a vector or a segment list has; else 0 */
    uint64_t place;   /* the place in the history, from 0, of the first of the replies */
    uint64_t replies; /* how many replies there are: 1 to a call, to a block as many as it has calls */
} cvl_answer;

typedef struct cvl_served {
    uint64_t calls;   /* of which a block counts as one */
    uint64_t waves;   /* groups that were run one after the other */
    uint64_t kernels; /* runs of kernels */
} cvl_served;

typedef struct cvl_closed {
    uint64_t history; /* how many calls the history has */
    bool audited;     /* whether the history, done again, gave the memory */
} cvl_closed;

/* Makes a machine whose memory has room for so many items in all, and opens these callers on it, numbered in their order. They must be
 * shut, so set them to CVL_CALLER_INIT before. Any thread.
 * CVL_OK, CVL_NOT_SHUT, CVL_BAD_CALLERS, CVL_BAD_ROOM, CVL_NO_MEMORY; but for CVL_OK they stay shut. */
int32_t cvl_open(uint64_t room, cvl_caller *callers, size_t count);

/* Each leaves a call or a block, where nothing is left yet. It does not run it. The thread that holds the caller.
 * CVL_OK, CVL_SHUT, CVL_OCCUPIED, CVL_NO_MEMORY and what is named; but for CVL_OK nothing was left. */

/* The call of a line, as "c = add_wuz a b"; docs/PROFILE.md has them all. CVL_BAD_CALL. */
int32_t cvl_post(cvl_caller *caller, const char *line, size_t length);
/* A block: the calls of the lines of a text; no other call comes between them. A fault in one undoes none of the others; out of memory
 * undoes all. Line feeds end or part the lines; an empty line or a carriage return is CVL_BAD_CALL. CVL_BAD_COUNT. */
int32_t cvl_post_block(cvl_caller *caller, const char *text, size_t length);
/* Sets a name to integers, or truth values, each 0 or 1. CVL_BAD_NAME. */
int32_t cvl_post_ints(cvl_caller *caller, const char *name, size_t length, const int64_t *items, size_t count);
int32_t cvl_post_bools(cvl_caller *caller, const char *name, size_t length, const bool *items, size_t count);
/* Sets a name to the segment list of these lengths. It is a block of two calls: of its replies the second tells. CVL_BAD_NAME. */
int32_t cvl_post_lengths(cvl_caller *caller, const char *name, size_t length, const int64_t *lengths, size_t count);
/* Asks for the value of a name; read it by cvl_ints and its kin. CVL_BAD_NAME. */
int32_t cvl_post_get(cvl_caller *caller, const char *name, size_t length);

/* Keeps the call of a line with the caller, to be left again and again without reading it, and writes its number: 0, 1, 2 and so on.
 * CVL_OK, CVL_SHUT, CVL_BAD_CALL, CVL_NO_MEMORY. */
int32_t cvl_prepare(cvl_caller *caller, const char *line, size_t length, uint64_t *number);
/* Forgets all prepared calls of the caller. CVL_OK, CVL_SHUT. */
int32_t cvl_forget(cvl_caller *caller);
/* Leaves the prepared call of a number, or those of some numbers as a block. As cvl_post; CVL_NOT_PREPARED, CVL_BAD_COUNT. */
int32_t cvl_post_prepared(cvl_caller *caller, uint64_t number);
int32_t cvl_post_prepared_block(cvl_caller *caller, const uint64_t *numbers, size_t count);

/* Each begins a call, where nothing is left yet: it runs at once if no other caller has the book, which takes less time than to leave it
 * and to serve it, and else it is left. The thread that holds the caller.
 * CVL_ANSWERED, and the answer shows the reply; CVL_WAITING: it is left, as by cvl_post; or as cvl_post below 0, and nothing was left. */

/* The call of a line. CVL_BAD_CALL. */
int32_t cvl_begin(cvl_caller *caller, const char *line, size_t length, cvl_answer *answer);
/* The prepared call of a number. CVL_NOT_PREPARED. */
int32_t cvl_begin_prepared(cvl_caller *caller, uint64_t number, cvl_answer *answer);

/* Serves what all callers have left, unless another caller does just then: CVL_SERVED, CVL_BUSY, CVL_SHUT. Any caller serves for all.
 * The thread that holds the caller. */
int32_t cvl_serve(cvl_caller *caller, cvl_served *served);
/* What became of what the caller left. Where it was answered the answer shows the (first) reply. The thread that holds the caller. */
int32_t cvl_poll(cvl_caller *caller, cvl_answer *answer);
/* Serves if it can, and asks. */
int32_t cvl_step(cvl_caller *caller, cvl_answer *answer);

/* Readers of the last replies, which stay until the next answer. Number 0 is the reply to a call; those to a block are numbered as its
 * calls. They change nothing. */

/* CVL_OK, CVL_NO_REPLY, CVL_SHUT; but for CVL_OK the answer stays as it was. */
int32_t cvl_reply(cvl_caller *caller, uint64_t number, cvl_answer *answer);
/* The items of a vector, or the lengths of a segment list, as many as fit; how many there are in all, 0 where the reply is of another
 * kind, there is none, or the caller is shut. */
uint64_t cvl_ints(cvl_caller *caller, uint64_t number, int64_t *items, size_t count);
uint64_t cvl_bools(cvl_caller *caller, uint64_t number, bool *items, size_t count);
uint64_t cvl_lengths(cvl_caller *caller, uint64_t number, size_t *lengths, size_t count);
/* Where the items of a vector lie, with no copy; how many there are, as above, and where that is 0 there may be nothing to read. They
 * stay there and may be read until the caller's last replies are others (its next answer, or cvl_close), and are not to be written. */
uint64_t cvl_ints_at(cvl_caller *caller, uint64_t number, const int64_t **items);
uint64_t cvl_bools_at(cvl_caller *caller, uint64_t number, const bool **items);

/* The text of a reply as the program writes it, as "z 1 2" or "fault 1", as much as fits; how long it is in all goes to `length`, 0 where
 * there is no such reply or the caller is shut. CVL_OK; CVL_NO_MEMORY, and nothing is written. */
int32_t cvl_text(cvl_caller *caller, uint64_t number, char *text, size_t room, uint64_t *length);

/* The length of the history, all of which the caller has then seen; UINT64_MAX where it is shut. */
uint64_t cvl_look(cvl_caller *caller);

/* Gives a caller up, with its prepared calls and its replies, and leaves it shut. With the last caller of a machine the machine goes:
 * `closed` tells the length of its history, and whether that was done again and gave the memory. What a caller left and did not ask
 * after may be served or not. CVL_CLOSED, CVL_LEFT_OTHERS, CVL_UNFINISHED, CVL_NO_MEMORY, CVL_SHUT. */
int32_t cvl_close(cvl_caller *caller, cvl_closed *closed);

#ifdef __cplusplus
}
#endif

/* A caller that is NULL is given on as one that is shut. The functions themselves take none; their addresses are those functions. */
static inline cvl_caller *cvl_or_shut(cvl_caller *caller)
{
    static __thread cvl_caller shut;
    return caller ? caller : &shut;
}

#define cvl_post(caller, line, length) cvl_post(cvl_or_shut(caller), line, length)
#define cvl_post_block(caller, text, length) cvl_post_block(cvl_or_shut(caller), text, length)
#define cvl_post_ints(caller, name, length, items, count) cvl_post_ints(cvl_or_shut(caller), name, length, items, count)
#define cvl_post_bools(caller, name, length, items, count) cvl_post_bools(cvl_or_shut(caller), name, length, items, count)
#define cvl_post_lengths(caller, name, length, lengths, count) cvl_post_lengths(cvl_or_shut(caller), name, length, lengths, count)
#define cvl_post_get(caller, name, length) cvl_post_get(cvl_or_shut(caller), name, length)
#define cvl_prepare(caller, line, length, number) cvl_prepare(cvl_or_shut(caller), line, length, number)
#define cvl_forget(caller) cvl_forget(cvl_or_shut(caller))
#define cvl_post_prepared(caller, number) cvl_post_prepared(cvl_or_shut(caller), number)
#define cvl_post_prepared_block(caller, numbers, count) cvl_post_prepared_block(cvl_or_shut(caller), numbers, count)
#define cvl_begin(caller, line, length, answer) cvl_begin(cvl_or_shut(caller), line, length, answer)
#define cvl_begin_prepared(caller, number, answer) cvl_begin_prepared(cvl_or_shut(caller), number, answer)
#define cvl_serve(caller, served) cvl_serve(cvl_or_shut(caller), served)
#define cvl_poll(caller, answer) cvl_poll(cvl_or_shut(caller), answer)
#define cvl_step(caller, answer) cvl_step(cvl_or_shut(caller), answer)
#define cvl_reply(caller, number, answer) cvl_reply(cvl_or_shut(caller), number, answer)
#define cvl_ints(caller, number, items, count) cvl_ints(cvl_or_shut(caller), number, items, count)
#define cvl_bools(caller, number, items, count) cvl_bools(cvl_or_shut(caller), number, items, count)
#define cvl_lengths(caller, number, lengths, count) cvl_lengths(cvl_or_shut(caller), number, lengths, count)
#define cvl_ints_at(caller, number, items) cvl_ints_at(cvl_or_shut(caller), number, items)
#define cvl_bools_at(caller, number, items) cvl_bools_at(cvl_or_shut(caller), number, items)
#define cvl_text(caller, number, text, room, length) cvl_text(cvl_or_shut(caller), number, text, room, length)
#define cvl_look(caller) cvl_look(cvl_or_shut(caller))
#define cvl_close(caller, closed) cvl_close(cvl_or_shut(caller), closed)

/* What a number says, in words. */
static inline const char *cvl_status_text(int32_t status)
{
    switch (status) {
    case CVL_NO_MEMORY: return "out of memory";
    case CVL_SHUT: return "the caller is not open";
    case CVL_BAD_CALL: return "not a call";
    case CVL_BAD_NAME: return "not a name";
    case CVL_BAD_COUNT: return "not 1 to 1,024 calls";
    case CVL_NOT_PREPARED: return "no call of this number is prepared";
    case CVL_OCCUPIED: return "a call is left already";
    case CVL_BAD_CALLERS: return "not 1 to 64 callers";
    case CVL_BAD_ROOM: return "no lawful room";
    case CVL_NOT_SHUT: return "a caller is open already";
    case CVL_NO_REPLY: return "no reply of this number";
    default: return status >= 0 ? "done" : "unknown";
    }
}

static inline const char *cvl_fault_text(uint32_t fault)
{
    switch (fault) {
    case CVL_FAULT_NO_VECTOR: return "a name stands for nothing";
    case CVL_FAULT_WRONG_TYPE: return "a value of another type";
    case CVL_FAULT_WRONG_LENGTH: return "lengths differ, or one is below 0";
    case CVL_FAULT_BAD_SEGMENTS: return "segments that do not fit what they cut";
    case CVL_FAULT_BAD_INDEX: return "a place outside a value, or named twice or not at all";
    case CVL_FAULT_ZERO_DIVISOR: return "a divisor 0";
    case CVL_FAULT_BAD_SHIFT: return "a shift by a count outside 0 to 63";
    case CVL_FAULT_TOO_LONG: return "more than 1,048,576 items";
    case CVL_FAULT_NO_ROOM: return "no room for the value";
    case CVL_FAULT_TOO_MANY_NAMES: return "no place for another name";
    default: return "no fault";
    }
}

#ifndef CVL_NO_WAIT
#include <sched.h>
/* How many turns a caller that found another with the book lets pass before it tries again: at first, and at most. */
enum { CVL_FIRST_PAUSE = 512, CVL_LAST_PAUSE = 2048 };

/* Lets so many turns pass, and after the longest pause the processor goes to others. */
static inline void cvl_pause(uint32_t turns)
{
    for (uint32_t turn = 0; turn < turns; turn++) {
#if defined(__x86_64__) && defined(__GNUC__)
        __builtin_ia32_pause();
#elif defined(__GNUC__)
        __asm__ volatile("" ::: "memory");
#endif
    }
    if (turns == CVL_LAST_PAUSE)
        sched_yield();
}

/* Lets so many turns pass, then asks and serves until what was left is answered. */
static inline int32_t cvl_wait_after(cvl_caller *caller, uint32_t turns, cvl_answer *answer)
{
    for (;;) {
        cvl_served served;
        cvl_pause(turns);
        int32_t told = cvl_poll(caller, answer);
        if (told != CVL_WAITING)
            return told;
        if (cvl_serve(caller, &served) != CVL_BUSY)
            turns = 0;
        else if (turns < CVL_FIRST_PAUSE)
            turns = CVL_FIRST_PAUSE;
        else
            turns = 2 * turns < CVL_LAST_PAUSE ? 2 * turns : (uint32_t)CVL_LAST_PAUSE;
    }
}

/* Asks and serves until what was left is answered: CVL_ANSWERED, CVL_ANSWERED_BLOCK, CVL_IDLE where nothing was left, or below 0. How to
 * wait is the program's affair, and this is one way, as the library's own callers wait. A runtime defines CVL_NO_WAIT, and lets its own
 * tasks run between two steps. */
static inline int32_t cvl_wait(cvl_caller *caller, cvl_answer *answer)
{
    return cvl_wait_after(caller, 0, answer);
}

/* Begins the call of a line, and waits for its answer where it was left: CVL_ANSWERED, or below 0. */
static inline int32_t cvl_call(cvl_caller *caller, const char *line, size_t length, cvl_answer *answer)
{
    int32_t begun = cvl_begin(caller, line, length, answer);
    return begun == CVL_WAITING ? cvl_wait_after(caller, CVL_FIRST_PAUSE, answer) : begun;
}

/* The same of the prepared call of a number. */
static inline int32_t cvl_call_prepared(cvl_caller *caller, uint64_t number, cvl_answer *answer)
{
    int32_t begun = cvl_begin_prepared(caller, number, answer);
    return begun == CVL_WAITING ? cvl_wait_after(caller, CVL_FIRST_PAUSE, answer) : begun;
}
#endif

#endif
