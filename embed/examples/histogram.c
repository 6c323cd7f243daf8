/* A histogram by segments: a thousand keys from 0 to 9. Each kind of key has a segment, in which all keys are asked whether they are of
 * that kind; one reduction by segments counts them. */
#include <cvl.h>
#include <stdio.h>
#include <stdlib.h>
#include <string.h>

enum { KEYS = 1000, KINDS = 10 };

static cvl_answer ask(cvl_caller *caller, int32_t posted)
{
    cvl_answer answer;
    int32_t told = posted == CVL_OK ? cvl_wait(caller, &answer) : posted;
    if (told != CVL_ANSWERED && told != CVL_ANSWERED_BLOCK) {
        fprintf(stderr, "%s\n", cvl_status_text(told));
        exit(1);
    }
    if (answer.kind == CVL_FAULT) {
        fprintf(stderr, "%s\n", cvl_fault_text(answer.fault));
        exit(1);
    }
    return answer;
}

static void line(cvl_caller *caller, const char *text)
{
    ask(caller, cvl_post(caller, text, strlen(text)));
}

int main(void)
{
    cvl_caller caller = CVL_CALLER_INIT;
    int64_t keys[KEYS], counts[KINDS], lengths[KINDS];
    cvl_closed closed;
    int32_t opened = cvl_open(100000, &caller, 1);
    if (opened != CVL_OK) {
        fprintf(stderr, "%s\n", cvl_status_text(opened));
        return 1;
    }
    for (int i = 0; i < KEYS; i++)
        keys[i] = (int64_t)i * i % KINDS;
    for (int k = 0; k < KINDS; k++)
        lengths[k] = KEYS;
    ask(&caller, cvl_post_ints(&caller, "keys", 4, keys, KEYS));
    /* A segment for each kind. */
    ask(&caller, cvl_post_lengths(&caller, "rows", 4, lengths, KINDS));
    line(&caller, "kinds = ind_luz 0 1 10");
    line(&caller, "kind = dis_vez kinds rows");
    line(&caller, "place = ind_luz 0 1 10000");
    line(&caller, "width = dis_vuz 1000 10000");
    line(&caller, "at = mod_wuz place width");
    line(&caller, "key = bck_puz keys at");
    line(&caller, "same = eql_wuz key kind");
    line(&caller, "one = int_wub same");
    line(&caller, "counts = add_rez one rows");
    ask(&caller, cvl_post_get(&caller, "counts", 6));
    cvl_ints(&caller, 0, counts, KINDS);
    for (int k = 0; k < KINDS; k++)
        printf("%d: %lld\n", k, (long long)counts[k]);
    return cvl_close(&caller, &closed) == CVL_CLOSED && closed.audited ? 0 : 1;
}
