/* What of a run of the program is refused, and what was counted: it lies in memory that both share. */
#include <stddef.h>

enum kind { GROWTH, START, READ, WRITE, KINDS };

/* The descriptor that the program finds its plan on. */
enum { PLAN_DESCRIPTOR = 3 };

struct plan {
    long refused[KINDS]; /* the number of the one that is refused, from 1; 0: none */
    long counted[KINDS];
    size_t piece;        /* a read or a write takes at most so many bytes; 0: as many as are asked for */
    int takes_none;      /* whether a refused write takes 0 bytes in place of failing */
};
