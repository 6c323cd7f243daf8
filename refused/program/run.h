/* Runs of the program, each with something refused. */
#include "plan.h"

/* Bytes in memory. */
struct text {
    char *bytes;
    size_t length;
};

/* How a run ended: its exit status, or the negative number of the signal that ended it, what it printed, and how many lines that begin
   with its name it wrote to standard error, or -1 where it wrote something else there. */
struct ended {
    int status;
    struct text printed;
    int notes;
};

/* Makes what all runs share: the plan, which is answered, and the streams. */
struct plan *prepare(const char *program, const char *broken);

/* A plan that refuses nothing. */
void refuse_nothing(struct plan *plan);

/* Runs the program in a mode, with this input, by the plan. What it printed stands until the next run. */
struct ended run(const char *mode, struct text input);

/* The bytes of a file, or the end of this program. */
struct text bytes_of(const char *file);
