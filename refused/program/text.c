#include "text.h"
#include <string.h>

struct text first_bytes(struct text text, size_t count)
{
    return (struct text){text.bytes, count < text.length ? count : text.length};
}

int is(struct text text, struct text other)
{
    return text.length == other.length && !memcmp(text.bytes, other.bytes, text.length);
}

int is_first_lines(struct text text, struct text of)
{
    int ended = text.length == 0 || text.bytes[text.length - 1] == '\n';
    return ended && text.length <= of.length && !memcmp(text.bytes, of.bytes, text.length);
}

size_t lines_in(struct text text)
{
    size_t count = 0;
    for (size_t at = 0; at < text.length; at++)
        count += text.bytes[at] == '\n';
    return count;
}

/* Takes the next line of a text, without its line feed. */
static struct text take_line(struct text *rest)
{
    size_t end = 0;
    while (end < rest->length && rest->bytes[end] != '\n')
        end++;
    struct text line = first_bytes(*rest, end);
    size_t taken = end < rest->length ? end + 1 : end;
    *rest = (struct text){rest->bytes + taken, rest->length - taken};
    return line;
}

/* Whether a line, which is no comment, ends in this brace: it opens or closes a block. */
static int is_brace(struct text line, char brace)
{
    return line.length > 0 && *line.bytes != '#' && line.bytes[line.length - 1] == brace;
}

int is_call(struct text line)
{
    static char head[] = "cvl 2";
    return line.length > 0 && *line.bytes != '#' && !is(line, (struct text){head, sizeof head - 1}) && !is_brace(line, '{') &&
           !is_brace(line, '}');
}

size_t calls_in(struct text script)
{
    struct text rest = first_bytes(script, script.length - unended_line(script).length);
    size_t count = 0;
    while (rest.length > 0)
        count += is_call(take_line(&rest));
    return count;
}

int ends_in_block(struct text script)
{
    int open = 0;
    while (script.length > 0) {
        struct text line = take_line(&script);
        open += is_brace(line, '{') - is_brace(line, '}');
    }
    return open > 0;
}

struct text first_lines(struct text text, size_t count)
{
    size_t at = 0;
    for (; at < text.length && count > 0; at++)
        count -= text.bytes[at] == '\n';
    return (struct text){text.bytes, at};
}

struct text unended_line(struct text script)
{
    size_t begin = script.length;
    while (begin > 0 && script.bytes[begin - 1] != '\n')
        begin--;
    return (struct text){script.bytes + begin, script.length - begin};
}
