/* What the tool is told, in two files that are mapped. So it is there however the process ends. */
#define _GNU_SOURCE
#include <fcntl.h>
#include <stdarg.h>
#include <stdio.h>
#include <string.h>
#include <sys/mman.h>
#include <sys/syscall.h>
#include <unistd.h>

#include "schedule.h"

enum { ROOM = 1 << 26, ROOM_OF_VERDICT = 1 << 12, MOST_OF_PATH = 4096, STATUS = 80 };

/* The head of a file, and the text behind it. scheduling.py reads it. */
typedef struct {
    _Atomic uint64_t takers; /* processes that wanted to be scheduled: the first one is */
    uint64_t length, points, switches, forks;
    uint64_t ended; /* 0: in a way of its own; 1: by exit; 2: the library ended it */
    uint64_t is_full;
    uint64_t accesses; /* of memory */
    char text[];
} Told;

enum { BY_EXIT = 1, BY_LIBRARY = 2 };

static Told *run, *story;

static const char *const verdicts[VERDICTS] = {
    [DEADLOCK] = "deadlock", [LOST_WAKE_UP] = "lost wake-up", [STUCK] = "stuck", [MISUSE] = "misuse",
    [LIVELOCK] = "livelock", [DIVERGED] = "diverged",         [LIMIT] = "limit", [UNSUPPORTED] = "unsupported",
    [RACE] = "race",
};

static Told *map_told(const char *folder, const char *name)
{
    char path[MOST_OF_PATH + 16];

    snprintf(path, sizeof path, "%s/%s", folder, name);
    int file = open(path, O_RDWR | O_CLOEXEC);
    void *mapped = file < 0 ? MAP_FAILED : mmap(NULL, ROOM, PROT_READ | PROT_WRITE, MAP_SHARED, file, 0);
    if (file >= 0)
        close(file);
    return mapped == MAP_FAILED ? NULL : mapped;
}

bool open_told(const char *folder)
{
    run = map_told(folder, "told");
    story = map_told(folder, "story");
    return run != NULL && story != NULL;
}

bool take_told(void) { return atomic_fetch_add(&run->takers, 1) == 0; }

/* The last of a run's room is for why the library ended it. */
static size_t room_left(const Told *told)
{
    bool is_kept = told == run && run->ended != BY_LIBRARY;

    return ROOM - (is_kept ? ROOM_OF_VERDICT : 0) - sizeof *told - told->length;
}

/* A text that finds no room is left out, and so is all behind it but a verdict. */
static void put(Told *told, const char *text, size_t size)
{
    if (told->is_full || size > room_left(told)) {
        told->is_full = 1;
        return;
    }
    memcpy(told->text + told->length, text, size);
    told->length += size;
}

void tell_points(uint64_t points, bool is_switch)
{
    run->points = points;
    run->switches += is_switch;
}

void tell_choice(const char *line)
{
    put(run, line, strlen(line));
    put(run, "\n", 1);
    if (run->is_full)
        stop(LIMIT, "the schedule is longer than %d bytes", ROOM);
}

void tell_fork(void) { run->forks++; }

void tell_access(void) { run->accesses++; }

/* `~ flock`: a call that went on outside. */
void tell_outside(const char *call)
{
    put(run, "~ ", 2);
    put(run, call, strlen(call));
    put(run, "\n", 1);
}

void tell_exit(void) { run->ended = BY_EXIT; }

static void put_formatted(Told *told, const char *format, va_list list)
{
    static char line[MOST_OF_CHOICE];
    int size = vsnprintf(line, sizeof line, format, list);

    if (size > 0)
        put(told, line, (size_t)size < sizeof line ? (size_t)size : sizeof line - 1);
}

void tell_reason(const char *format, ...)
{
    va_list list;

    va_start(list, format);
    put(run, "# ", 2);
    put_formatted(run, format, list);
    put(run, "\n", 1);
    va_end(list);
}

void tell_verdict(Verdict verdict, const char *reason)
{
    run->ended = BY_LIBRARY;
    if (run->is_full) {
        run->is_full = 0;
        put(run, "\n", 1);
    }
    tell_reason("%s: %s", verdicts[verdict], reason);
}

/* What the program has printed is shown, unless a thread that stands still is printing. */
void end_run(void)
{
    if (ftrylockfile(stdout) == 0)
        fflush_unlocked(stdout);
    for (;;)
        syscall(SYS_exit_group, STATUS);
}

void tell_event(const char *format, ...)
{
    va_list list;

    if (!options.story)
        return;
    va_start(list, format);
    put_formatted(story, format, list);
    put(story, "\n", 1);
    va_end(list);
}

static const char *const calls[] = {
    [PIF_LOCK] = "lock",           [PIF_TRYLOCK] = "trylock",     [PIF_UNLOCK] = "unlock",
    [PIF_CONSISTENT] = "consistent", [PIF_TIMEDLOCK] = "timedlock", [PIF_WAIT] = "wait",
    [PIF_TIMEDWAIT] = "timedwait", [PIF_SIGNAL] = "signal",       [PIF_BROADCAST] = "broadcast",
    [PIF_SETPRIO] = "setprio",
};

/* ` lock m1`: the words of a call in scripts. */
static void write_request(const pif_request *asked, char *words)
{
    char *at = words + sprintf(words, " %s", calls[asked->call]);

    if (asked->cond != 0)
        at += sprintf(at, " c%u", asked->cond);
    if (asked->mutex != 0)
        at += sprintf(at, " m%u", asked->mutex);
    if (asked->call == PIF_SETPRIO)
        sprintf(at, " t%u %u", asked->thread, asked->prio);
    if (asked->call == PIF_TIMEDLOCK || asked->call == PIF_TIMEDWAIT)
        sprintf(at, " %u", asked->deadline);
}

/* A line of a story: a call as it is made, or as it is gone on with, without its words then. */
void tell_call(const Thread *thread, const char *how, const pif_request *asked, pif_seen seen)
{
    char words[MOST_OF_LINE] = "";

    if (!options.story)
        return;
    if (asked != NULL)
        write_request(asked, words);
    if (seen.what == PIF_ANSWERED)
        tell_event("%s t%u%s = answer %u", how, thread->number, words, seen.detail);
    else
        tell_event("%s t%u%s = waits", how, thread->number, words);
}

/* A line of a history: the begin of a call. */
void tell_begin(const Thread *thread, const pif_request *asked)
{
    char words[MOST_OF_LINE] = "";

    if (!options.story)
        return;
    write_request(asked, words);
    tell_event("begin t%u%s", thread->number, words);
}
