#define _GNU_SOURCE
#include "run.h"
#include <fcntl.h>
#include <stdio.h>
#include <stdlib.h>
#include <string.h>
#include <sys/mman.h>
#include <sys/wait.h>
#include <unistd.h>

/* A run that takes longer is ended by a signal. */
enum { SECONDS = 60 };

static const char *program_path, *preloaded;
static int plan_file, input_file, output_file, notes_file;

static void fail(const char *what)
{
    perror(what);
    exit(1);
}

static int memory_file(const char *name)
{
    int file = memfd_create(name, 0);
    if (file < 0)
        fail(name);
    return file;
}

struct plan *prepare(const char *program, const char *broken)
{
    static char setting[4096];
    snprintf(setting, sizeof setting, "LD_PRELOAD=%s", broken);
    program_path = program;
    preloaded = setting;
    plan_file = memory_file("plan");
    input_file = memory_file("input");
    output_file = memory_file("output");
    notes_file = memory_file("notes");
    if (ftruncate(plan_file, sizeof(struct plan)) < 0)
        fail("plan");
    void *plan = mmap(NULL, sizeof(struct plan), PROT_READ | PROT_WRITE, MAP_SHARED, plan_file, 0);
    if (plan == MAP_FAILED)
        fail("plan");
    return plan;
}

void refuse_nothing(struct plan *plan)
{
    memset(plan, 0, sizeof *plan);
}

/* Puts these bytes into a file of memory, to be read from its beginning. */
static void fill(int file, struct text text)
{
    if (ftruncate(file, 0) < 0 || pwrite(file, text.bytes, text.length, 0) != (ssize_t)text.length || lseek(file, 0, SEEK_SET) < 0)
        fail("input");
}

/* In the new process: the program in place of this one. */
static void become(const char *mode)
{
    const char *words[] = {"cvl", mode, NULL}, *settings[] = {preloaded, NULL};
    dup2(input_file, 0);
    dup2(output_file, 1);
    dup2(notes_file, 2);
    dup2(plan_file, PLAN_DESCRIPTOR);
    alarm(SECONDS);
    execve(program_path, (char *const *)words, (char *const *)settings);
    _exit(98);
}

/* What a file of memory holds. It stands until the next call. */
static struct text held(int file)
{
    static char *bytes;
    off_t length = lseek(file, 0, SEEK_END);
    free(bytes);
    bytes = malloc((size_t)length + 1);
    if (!bytes || pread(file, bytes, (size_t)length, 0) != length)
        fail("output");
    return (struct text){bytes, (size_t)length};
}

static int notes_in(struct text text)
{
    int notes = 0;
    for (char *at = text.bytes, *end = at + text.length; at < end; notes++) {
        char *feed = memchr(at, '\n', (size_t)(end - at));
        if (!feed || feed - at < 6 || memcmp(at, "cvl: ", 5))
            return -1;
        at = feed + 1;
    }
    return notes;
}

struct ended run(const char *mode, struct text input)
{
    int said;
    fill(input_file, input);
    fill(output_file, (struct text){"", 0});
    fill(notes_file, (struct text){"", 0});
    pid_t child = fork();
    if (child == 0)
        become(mode);
    if (child < 0 || waitpid(child, &said, 0) < 0)
        fail("run");
    int notes = notes_in(held(notes_file));
    return (struct ended){WIFEXITED(said) ? WEXITSTATUS(said) : -WTERMSIG(said), held(output_file), notes};
}

struct text bytes_of(const char *name)
{
    struct text text = {NULL, 0};
    FILE *file = fopen(name, "r");
    if (!file || fseek(file, 0, SEEK_END) != 0)
        fail(name);
    text.length = (size_t)ftell(file);
    text.bytes = malloc(text.length + 1);
    rewind(file);
    if (!text.bytes || fread(text.bytes, 1, text.length, file) != text.length)
        fail(name);
    fclose(file);
    return text;
}
