/* Scripts and what the program prints, cut into lines. */
#include "run.h"

/* The first bytes of a text. */
struct text first_bytes(struct text text, size_t count);

/* Whether two texts are the same. */
int is(struct text text, struct text other);

/* Whether a text consists of some first lines of another, each whole. */
int is_first_lines(struct text text, struct text of);

/* How many lines a text ends. */
size_t lines_in(struct text text);

/* Whether a line is a call: no comment, not empty, not the head of a script of edition 2 and no brace of a block. */
int is_call(struct text line);

/* How many calls stand in the whole lines of a script. */
size_t calls_in(struct text script);

/* Whether a block is open at the end of a script, its last line counted whether it is ended or not. */
int ends_in_block(struct text script);

/* The first lines of a text, so many, or all. */
struct text first_lines(struct text text, size_t count);

/* What a script holds behind its last line feed. */
struct text unended_line(struct text script);
