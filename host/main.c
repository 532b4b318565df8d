/* pif-host: asks this machine's own mutexes what a script or a story asks. */
#include <errno.h>
#include <getopt.h>
#include <stdlib.h>
#include <string.h>

#include "child.h"

enum { SLOWEST = 400 }; /* milliseconds a command */

static const char usage[] =
    "usage: pif-host glibc|raw [FILE]\n"
    "       pif-host --versions | --help\n";

static const char help[] =
    "\n"
    "Reads a script or a story (standard input without FILE), and prints for each command what this machine answers.\n"
    "\n"
    "  glibc   the pthread calls of glibc: whole calls\n"
    "  raw     the steps of the calls one by one, on the kernel's futex calls and a robust list\n"
    "\n"
    "  --seconds N   ends a script that takes longer, 1 to 86400; 20 if it isn't named. If the machine is too slow\n"
    "                for the deadlines, the script runs again at a quarter of the pace, with four times the seconds\n"
    "  --most N      takes N threads and mutexes at most, 1024 to 8192, also more than `pif run` does; 1024 if it\n"
    "                isn't named\n"
    "  --late        who made a step keeps the processor until another thread has to run: who was woken by it is\n"
    "                late, unless its priority is greater. `pick` isn't asked then\n"
    "  --versions    prints the kernel and the library that are asked\n"
    "  --help        prints this\n"
    "\n"
    "It prints what `pif run` prints, and besides `not asked` (what can't be asked), and `aborts`, `dies` or `hangs`\n"
    "(the process ended or stood still there; standard error has the reason).\n"
    "\n"
    "Statuses: 0 done; 1 wrong words; 2 a fault of the script; 3 the input or output failed; 4 out of memory;\n"
    "6 a thread or process can't be started; 7 this machine can't be asked; 8 it is too slow for the deadlines.\n"
    "docs/HOST.md has the rest.\n";

typedef struct {
    Choice choice;
    const char *file;
} Words;

static int fail(int status, const char *why)
{
    fprintf(stderr, "pif-host: %s\n", why);
    return status;
}

/* Whether all that was printed is written. Of a text longer than the buffer an earlier write may have failed. */
static bool is_written(void) { return fflush(stdout) == 0 && !ferror(stdout); }

static int fail_to_write(void) { return fail(STATUS_INPUT_OUTPUT, "the output can't be written"); }

/* What isn't read, and why; standard input has no name. */
static int fail_to_read(const char *name)
{
    fprintf(stderr, "pif-host: %s: %s\n", name == NULL ? "standard input" : name, strerror(errno));
    return STATUS_INPUT_OUTPUT;
}

static char *read_input(FILE *file, size_t *length)
{
    char *text = malloc((size_t)MOST_BYTES + 1);

    if (text != NULL)
        *length = fread(text, 1, (size_t)MOST_BYTES + 1, file);
    return text;
}

/* Reads the input into commands; the answer is a status. */
static int read_commands(const char *name, Script *script)
{
    FILE *file = name == NULL ? stdin : fopen(name, "r");
    size_t length = 0;

    if (file == NULL)
        return fail_to_read(name);
    char *text = read_input(file, &length);
    if (text != NULL && ferror(file))
        return fail_to_read(name);
    if (file != stdin)
        fclose(file);
    if (text != NULL && length > MOST_BYTES)
        return fail(STATUS_FAULT, "the input has more than 16777216 bytes");
    bool done = text != NULL && read_script(text, length, script);
    free(text);
    return done ? STATUS_DONE : fail(STATUS_MEMORY, "out of memory");
}

static size_t count_lines(const Result *result)
{
    size_t lines = 0;

    for (size_t i = 0; i < result->length; i++)
        lines += result->text[i] == '\n';
    return lines;
}

/* What the process printed, and what stands for the commands that it never came to. */
static int print_answers(const Script *script, const Result *result)
{
    size_t lines = count_lines(result);

    fwrite(result->text, 1, result->length, stdout);
    if (result->stopped != NULL && lines < script->count) {
        fprintf(stderr, "pif-host: line %zu: the process %s. %s\n", script->commands[lines].line, result->stopped,
            result->last_words);
        puts(result->stopped);
        for (lines++; lines < script->count; lines++)
            puts("not asked");
    }
    if (script->fault != NULL)
        printf("fault %zu %s\n", script->fault_line, script->fault);
    if (!is_written())
        return fail_to_write();
    return script->fault == NULL ? STATUS_DONE : fail(STATUS_FAULT, "the script has a fault");
}

static int explain(const Result *result)
{
    switch (result->status) {
    case STATUS_MEMORY: return fail(STATUS_MEMORY, "out of memory");
    case STATUS_THREADS: return fail(STATUS_THREADS, "a thread can't be started or ended");
    case STATUS_CANNOT_ASK:
        fprintf(stderr, "pif-host: this machine can't be asked: %s\n", result->last_words);
        return STATUS_CANNOT_ASK;
    case STATUS_SLOW: return fail(STATUS_SLOW, "too slow: a deadline passed before the tick that reaches it");
    default: return fail(STATUS_INPUT_OUTPUT, "the script's process failed");
    }
}

/* Runs the script, and again at a slower pace, with as much more time, if a deadline passed too early. */
static int ask(const Words *words, const Script *script)
{
    Result result = {.status = STATUS_SLOW};

    Choice choice = words->choice;

    for (; choice.pace_ms <= SLOWEST && result.status == STATUS_SLOW; choice.pace_ms *= 4, choice.seconds *= 4) {
        free(result.text);
        result = (Result){.text = NULL};
        int status = run_in_child(&choice, script, &result);
        if (status != STATUS_DONE)
            return fail(status, "the script's process can't be started or read");
    }
    if (result.status != STATUS_DONE)
        return explain(&result);
    return print_answers(script, &result);
}

static int refuse(const char *why)
{
    fprintf(stderr, "pif-host: %s\n%s", why, usage);
    return STATUS_WORDS;
}

/* Reads the words behind the options; the answer is a status. */
static int read_words(int count, char **texts, Words *words)
{
    if (count < 1)
        return refuse("say which way: glibc or raw");
    if (count > 2)
        return refuse("too many words");
    if (strcmp(texts[0], "glibc") != 0 && strcmp(texts[0], "raw") != 0)
        return refuse("no such way: it is glibc or raw");
    words->choice.way = strcmp(texts[0], "raw") == 0 ? RAW : GLIBC;
    words->file = count == 2 ? texts[1] : NULL;
    return STATUS_DONE;
}

/* The number behind an option: at least 1. */
static bool read_number(const char *text, unsigned most, unsigned *number)
{
    char *end;
    unsigned long value = strtoul(text, &end, 10);

    *number = (unsigned)value;
    return *text >= '0' && *text <= '9' && *end == '\0' && value > 0 && value <= most;
}

/* Reads the options; the answer is a status, or -1 to go on. */
static int read_options(int count, char **texts, Choice *choice)
{
    static const struct option options[] = {{"help", no_argument, NULL, 'h'}, {"versions", no_argument, NULL, 'v'},
        {"seconds", required_argument, NULL, 's'}, {"most", required_argument, NULL, 'm'},
        {"late", no_argument, NULL, 'l'}, {NULL, 0, NULL, 0}};
    int option;

    opterr = 0;
    while ((option = getopt_long(count, texts, "hv", options, NULL)) != -1) {
        if (option == 'h')
            return printf("%s%s", usage, help), is_written() ? STATUS_DONE : fail_to_write();
        if (option == 'v')
            return print_versions(stdout), is_written() ? STATUS_DONE : fail_to_write();
        if (option == 'l')
            choice->late = true;
        if (option == '?')
            return refuse("no such option, or no number after it");
        if (option == 's' && !read_number(optarg, 86400, &choice->seconds))
            return refuse("the seconds are a number from 1 to 86400");
        if (option == 'm' && (!read_number(optarg, 8192, &choice->most) || choice->most < MOST_THREADS))
            return refuse("the most threads are a number from 1024 to 8192");
    }
    return -1;
}

int main(int count, char **texts)
{
    Words words = {.choice = {.seconds = 20, .most = MOST_THREADS, .pace_ms = 25}};
    Script script;

    int status = read_options(count, texts, &words.choice);
    if (status >= 0)
        return status;
    status = read_words(count - optind, texts + optind, &words);
    if (status == STATUS_DONE)
        status = check_system(stderr);
    if (status == STATUS_DONE)
        status = read_commands(words.file, &script);
    return status == STATUS_DONE ? ask(&words, &script) : status;
}
