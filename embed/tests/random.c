/* Random calls on one caller: `random script N` writes them as a script for the program, `random run N` makes them and writes what the
 * program should write. */
#include <cvl.h>
#include <inttypes.h>
#include <stdio.h>
#include <stdlib.h>
#include <string.h>

static uint64_t state = 88172645463325252u;

static unsigned chance(unsigned below)
{
    state ^= state << 13;
    state ^= state >> 7;
    state ^= state << 17;
    return (unsigned)(state % below);
}

static const char *const ints[] = {"i0", "i1", "i2", "i3"};
static const char *const flags[] = {"f0", "f1"};
static const char *const lists[] = {"s0", "s1"};

static const char *an_int(void) { return ints[chance(4)]; }
static const char *a_flag(void) { return flags[chance(2)]; }
static const char *a_list(void) { return lists[chance(2)]; }

/* The next call, as a line. */
static void next(char *line, size_t size)
{
    static const char *const two[] = {"add_wuz", "sub_wuz", "mul_wuz", "div_wuz", "max_wuz", "xor_wuz"};
    switch (chance(14)) {
    case 0: snprintf(line, size, "%s = z %d %d %d", an_int(), (int)chance(9) - 4, (int)chance(9), (int)chance(4)); break;
    case 1: snprintf(line, size, "%s = z %d", an_int(), (int)chance(5)); break;
    case 2: snprintf(line, size, "%s = b %s %s %s", a_flag(), chance(2) ? "T" : "F", chance(2) ? "T" : "F", chance(2) ? "T" : "F"); break;
    case 3: snprintf(line, size, "%s = mke_fov %s", a_list(), an_int()); break;
    case 4:
    case 5: snprintf(line, size, "%s = %s %s %s", an_int(), two[chance(6)], an_int(), an_int()); break;
    case 6: snprintf(line, size, "%s = les_wuz %s %s", a_flag(), an_int(), an_int()); break;
    case 7: snprintf(line, size, "%s = add_suz %s", an_int(), an_int()); break;
    case 8: snprintf(line, size, "%s = add_rez %s %s", an_int(), an_int(), a_list()); break;
    case 9: snprintf(line, size, "%s = sel_wuz %s %s %s", an_int(), a_flag(), an_int(), an_int()); break;
    case 10: snprintf(line, size, "%s = pck_puz %s %s", an_int(), an_int(), a_flag()); break;
    case 11: snprintf(line, size, "get %s", chance(2) ? an_int() : chance(2) ? a_flag() : a_list()); break;
    case 12: snprintf(line, size, "add_ruz %s", an_int()); break;
    default: snprintf(line, size, "ior_rub %s", a_flag()); break;
    }
}

/* The last reply as the program writes it. */
static void write_reply(cvl_caller *caller, const cvl_answer *answer)
{
    static int64_t items[4096];
    static bool truths[4096];
    static size_t lengths[4096];
    printf("0 ");
    switch (answer->kind) {
    case CVL_DONE: printf("ok"); break;
    case CVL_INT: printf("int %" PRId64, answer->value); break;
    case CVL_BOOL: printf("bool %s", answer->value ? "T" : "F"); break;
    case CVL_INTS:
        printf("z");
        cvl_ints(caller, 0, items, 4096);
        for (uint64_t i = 0; i < answer->count; i++)
            printf(" %" PRId64, items[i]);
        break;
    case CVL_BOOLS:
        printf("b");
        cvl_bools(caller, 0, truths, 4096);
        for (uint64_t i = 0; i < answer->count; i++)
            printf(" %s", truths[i] ? "T" : "F");
        break;
    case CVL_SEGMENTS:
        printf("s");
        cvl_lengths(caller, 0, lengths, 4096);
        for (uint64_t i = 0; i < answer->count; i++)
            printf(" %zu", lengths[i]);
        break;
    default: printf("fault %u", (unsigned)answer->fault); break;
    }
    printf("\n");
}

int main(int count, char **words)
{
    char line[256];
    cvl_caller caller = CVL_CALLER_INIT;
    cvl_answer answer;
    cvl_closed closed;
    if (count != 3)
        return 1;
    long calls = atol(words[2]);
    bool running = strcmp(words[1], "run") == 0;
    if (running && cvl_open(67108864, &caller, 1) != CVL_OK)
        return 1;
    for (long i = 0; i < calls; i++) {
        next(line, sizeof line);
        if (!running) {
            printf("0: %s\n", line);
            continue;
        }
        if (cvl_call(&caller, line, strlen(line), &answer) != CVL_ANSWERED) {
            fprintf(stderr, "%s\n", line);
            return 1;
        }
        write_reply(&caller, &answer);
    }
    return running && (cvl_close(&caller, &closed) != CVL_CLOSED || !closed.audited || closed.history != (uint64_t)calls);
}
