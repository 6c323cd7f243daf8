/* Runs the program on scripts whose output is known, and has each growth, start of a thread, read and write refused in turn, one in
   each run; and cuts each script at each byte. Says where a run did not end as it must, and how many there were of each.
   Arguments: the program, the file to preload, and for each script its mode, its file and the file with its output. */
#include "text.h"
#include <stdio.h>
#include <string.h>

/* A script, the mode it runs in and what it prints. */
struct script {
    const char *name, *mode;
    struct text input, output;
};

static struct plan *plan;
static long tried[KINDS], not_needed, slow, cuts, wrong;

static int is_serial(const struct script *script)
{
    return !strcmp(script->mode, "serial");
}

/* Counts a run that did not end as it must, or that did not say why in one line where it failed, and says so. */
static void expect(int right, const struct script *script, const char *what, long number, struct ended ended)
{
    if (right && ended.notes == (ended.status != 0))
        return;
    wrong++;
    printf("refused: %s in mode %s, %s %ld: status %d, %zu bytes, %d notes\n", script->name, script->mode, what, number, ended.status,
           ended.printed.length, ended.notes);
}

/* What is printed where only the first bytes of a script could be read: nothing in mode threads, which reads it whole first. */
static struct text output_of_read(const struct script *script, size_t read)
{
    return first_lines(script->output, is_serial(script) ? calls_in(first_bytes(script->input, read)) : 0);
}

/* With nothing refused, at several speeds of the streams. Answers how many growths and starts of threads there were. */
static void whole(const struct script *script)
{
    const size_t pieces[] = {1, 2, 7, 0};
    for (size_t each = 0; each < sizeof pieces / sizeof *pieces; each++) {
        refuse_nothing(plan);
        plan->piece = pieces[each];
        struct ended ended = run(script->mode, script->input);
        slow += pieces[each] > 0;
        expect(ended.status == 0 && is(ended.printed, script->output), script, "pieces of bytes", (long)pieces[each], ended);
    }
}

/* A refused growth is want of memory behind some first lines, unless the run can do without it. In mode threads a later run may
   take other growths, so they are gone over until none is refused. */
static void refuse_growths(const struct script *script)
{
    for (long number = 1;; number++) {
        refuse_nothing(plan);
        plan->refused[GROWTH] = number;
        struct ended ended = run(script->mode, script->input);
        int needless = ended.status == 0 && is(ended.printed, script->output);
        int wanted = ended.status == 3 && is_first_lines(ended.printed, script->output);
        expect(needless || wanted, script, "growth", number, ended);
        if (plan->counted[GROWTH] < number)
            return;
        tried[GROWTH]++;
        not_needed += needless;
    }
}

/* A thread that cannot be started is want of memory, and nothing is printed. */
static void refuse_starts(const struct script *script)
{
    for (long number = 1;; number++) {
        refuse_nothing(plan);
        plan->refused[START] = number;
        struct ended ended = run(script->mode, script->input);
        if (plan->counted[START] < number)
            return;
        tried[START]++;
        expect(ended.status == 3 && ended.printed.length == 0, script, "start of a thread", number, ended);
    }
}

/* Reads of so many bytes each: one that fails ends the run with status 4, behind what was read in whole lines before. */
static void refuse_reads(const struct script *script, size_t piece)
{
    size_t last = (script->input.length + piece - 1) / piece + 1;
    for (size_t number = 1; number <= last; number++) {
        refuse_nothing(plan);
        plan->refused[READ] = (long)number;
        plan->piece = piece;
        struct ended ended = run(script->mode, script->input);
        tried[READ]++;
        struct text output = output_of_read(script, (number - 1) * piece);
        expect(ended.status == 4 && is(ended.printed, output), script, "read", (long)number, ended);
    }
}

/* Writes of one byte each: one that fails, or that takes none, ends the run with status 4, behind the bytes before. */
static void refuse_writes(const struct script *script, int takes_none)
{
    for (size_t number = 1; number <= script->output.length; number++) {
        refuse_nothing(plan);
        plan->refused[WRITE] = (long)number;
        plan->piece = 1;
        plan->takes_none = takes_none;
        struct ended ended = run(script->mode, script->input);
        tried[WRITE]++;
        struct text output = first_bytes(script->output, number - 1);
        expect(ended.status == 4 && is(ended.printed, output), script, "write", (long)number, ended);
    }
}

/* Whether a text is "bad line" and this number. */
static int is_bad_line(struct text text, size_t line)
{
    char bad[64];
    int length = snprintf(bad, sizeof bad, "bad line %zu\n", line);
    return is(text, (struct text){bad, (size_t)length});
}

/* The number of the bad line where a script ends in a block: one behind its last line. */
static size_t line_behind(struct text input)
{
    return lines_in(input) + (unended_line(input).length > 0) + 1;
}

/* Whether a script of these bytes was refused as it must be. `whole` says that what stands behind its last line feed, if anything,
   is a whole line of the script it was cut from, and so no bad line by itself. */
static int is_refused_right(struct text input, int whole, struct text printed)
{
    int may_be_cut_line = !whole && is_bad_line(printed, lines_in(input) + 1);
    return may_be_cut_line || (ends_in_block(input) && is_bad_line(printed, line_behind(input)));
}

/* Whether a script of these bytes ended as it must, in mode serial: behind the replies of its whole lines stands one line more, a
   reply or "bad line", where it ends inside a line that is no comment. No script with blocks is run in this mode here. */
static int is_cut_right(const struct script *script, struct text input, int whole, struct ended ended)
{
    struct text before = first_lines(script->output, calls_in(input)), left = unended_line(input);
    if (!is(first_bytes(ended.printed, before.length), before))
        return 0;
    struct text more = {ended.printed.bytes + before.length, ended.printed.length - before.length};
    if (!is_call(left))
        return more.length == 0 && ended.status == 0;
    if (ended.status == 2)
        return is_refused_right(input, whole, more);
    return ended.status == 0 && lines_in(more) == 1 && more.bytes[more.length - 1] == '\n' && *more.bytes == *left.bytes;
}

/* The same in mode threads: a report of as many calls, which no script that ends in a block has, or the bad line alone. */
static int is_report_right(struct text input, int whole, struct ended ended)
{
    char last[64];
    if (ended.status == 2)
        return is_refused_right(input, whole, ended.printed);
    size_t calls = calls_in(input) + is_call(unended_line(input));
    int length = snprintf(last, sizeof last, "history %zu\naudit ok\n", calls);
    size_t begin = ended.printed.length - (size_t)length;
    return ended.status == 0 && !ends_in_block(input) && ended.printed.length >= (size_t)length &&
           !memcmp(ended.printed.bytes + begin, last, (size_t)length);
}

/* The script is cut at each byte. */
static void cut(const struct script *script)
{
    for (size_t length = 0; length < script->input.length; length++) {
        refuse_nothing(plan);
        struct text input = first_bytes(script->input, length);
        struct text left = unended_line(input);
        int whole = left.length == 0 || *left.bytes == '#' || script->input.bytes[length] == '\n';
        struct ended ended = run(script->mode, input);
        cuts++;
        int right = is_serial(script) ? is_cut_right(script, input, whole, ended) : is_report_right(input, whole, ended);
        expect(right, script, "cut at byte", (long)length, ended);
    }
}

/* How many bytes a read takes at most, so that a script takes no more than some hundred reads. */
static size_t piece_of(struct text input)
{
    return input.length / 256 + 1;
}

int main(int count, char **words)
{
    if (count < 6 || count % 3 != 0)
        return 2;
    plan = prepare(words[1], words[2]);
    for (char **word = words + 3; *word; word += 3) {
        struct script script = {word[1], word[0], bytes_of(word[1]), bytes_of(word[2])};
        whole(&script);
        refuse_growths(&script);
        refuse_starts(&script);
        refuse_reads(&script, piece_of(script.input));
        refuse_writes(&script, 0);
        refuse_writes(&script, 1);
        cut(&script);
    }
    printf("refused: the program, %d scripts: %ld growths (%ld not needed), %ld starts of threads, %ld reads, %ld writes, %ld slow "
           "runs, %ld cuts\n",
           count / 3 - 1, tried[GROWTH], not_needed, tried[START], tried[READ], tried[WRITE], slow, cuts);
    return wrong > 0;
}
