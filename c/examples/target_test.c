/* A unit test of a target, to copy: a small mutex with priority inheritance is held to the core, call by call. Each
   test makes the same calls on both. Of the first difference the story so far is printed, as `pif check` reads it, with
   what the target says. The first line says which library this runs on.

       target_test [forgets_a_boost|wakes_the_first]     the status is 1 if a test fails, 2 if a core can't be had

   The target's threads are numbers, and no two run at once, as in a simulation or with a scheduler of one's own. */
#include <stdarg.h>
#include <stdbool.h>
#include <stdio.h>
#include <stdlib.h>
#include <string.h>

#include "pif.h"

/* THE TARGET */

enum { THREADS = 4, MUTEXES = 3, NOBODY = 0, NO_MUTEX = 0 };

/* What is wrong with it. */
static bool forgets_a_boost, wakes_the_first;

/* From 1; the place 0 is nobody's. */
static struct {
    unsigned base[THREADS + 1], waits_for[THREADS + 1], arrived[THREADS + 1], owner[MUTEXES + 1], arrivals;
} target;

/* The greatest base priority of a thread and of all that wait for it, through at most so many owners. */
static unsigned target_priority(unsigned thread, unsigned depth)
{
    unsigned greatest = target.base[thread];

    for (unsigned waiter = 1; depth > 0 && waiter <= THREADS; waiter++) {
        unsigned mutex = target.waits_for[waiter];
        unsigned theirs = mutex != NO_MUTEX && target.owner[mutex] == thread ? target_priority(waiter, depth - 1) : 0;
        greatest = theirs > greatest ? theirs : greatest;
    }
    return greatest;
}

static unsigned target_effective(unsigned thread)
{
    return target_priority(thread, forgets_a_boost ? 1 : THREADS);
}

/* Whether a waiter comes before another one: by its priority, then by its arrival. */
static bool comes_before(unsigned waiter, unsigned other)
{
    unsigned mine = wakes_the_first ? 0 : target_effective(waiter), its = wakes_the_first ? 0 : target_effective(other);

    return mine > its || (mine == its && target.arrived[waiter] < target.arrived[other]);
}

/* True where the thread has the mutex now, false where it waits. */
static bool target_lock(unsigned thread, unsigned mutex)
{
    if (target.owner[mutex] == NOBODY) {
        target.owner[mutex] = thread;
        return true;
    }
    target.waits_for[thread] = mutex;
    target.arrived[thread] = ++target.arrivals;
    return false;
}

static void target_unlock(unsigned mutex)
{
    unsigned next = NOBODY;

    for (unsigned waiter = 1; waiter <= THREADS; waiter++)
        if (target.waits_for[waiter] == mutex && (next == NOBODY || comes_before(waiter, next)))
            next = waiter;
    target.owner[mutex] = next;
    target.waits_for[next] = NO_MUTEX;
}

/* BOTH TOGETHER */

static pif_core core;

static char story[4096];

static bool differs;

static void tell(const char *form, ...)
{
    size_t length = strlen(story);
    va_list rest;

    va_start(rest, form);
    vsnprintf(story + length, sizeof story - length, form, rest);
    va_end(rest);
}

/* The target says this of the last line of the story, and not what the core says. */
static void differ(const char *what, unsigned number)
{
    if (!differs)
        printf("the target differs in the last line: %s %u\n%s", what, number, story);
    differs = true;
}

static void compare_priorities(void)
{
    for (unsigned thread = 1; thread <= THREADS && !differs; thread++) {
        unsigned is = pif_effective(&core, thread).number;
        tell("prio t%u = %u\n", thread, is);
        if (target_effective(thread) != is)
            differ("it says", target_effective(thread));
    }
}

static void lock(unsigned thread, unsigned mutex)
{
    bool has = target_lock(thread, mutex);
    pif_seen seen = pif_call(&core, thread, pif_lock(mutex));

    if (differs)
        return;
    tell("call t%u lock m%u = %s\n", thread, mutex, seen.what == PIF_WAITS ? "waits" : "answer 0");
    if (has != (seen.what == PIF_ANSWERED))
        differ("its thread has the mutex:", has);
    compare_priorities();
}

/* Who gets a mutex goes on at once. */
static void unlock(unsigned thread, unsigned mutex)
{
    pif_call(&core, thread, pif_unlock(mutex));
    target_unlock(mutex);
    if (differs)
        return;
    unsigned next = pif_owner(&core, mutex).thread;
    tell("call t%u unlock m%u = answer 0\n", thread, mutex);
    if (next != NOBODY) {
        pif_finish(&core, next);
        tell("finish t%u = answer 0\n", next);
    }
    if (target.owner[mutex] != next)
        differ("the mutex is that of", target.owner[mutex]);
    compare_priorities();
}

static void begin_test(void)
{
    static const unsigned base[THREADS + 1] = {0, 10, 20, 30, 25};

    memset(&target, 0, sizeof target);
    story[0] = '\0';
    if (pif_core_new(&core, THREADS, MUTEXES, 0, 1) != PIF_OK) {
        fputs("target_test: there is no memory for a core\n", stderr);
        exit(2);
    }
    for (unsigned thread = 1; thread <= THREADS; thread++) {
        target.base[thread] = base[thread];
        tell("thread %u = t%u\n", base[thread], pif_add_thread(&core, base[thread]).number);
    }
    for (unsigned mutex = 1; mutex <= MUTEXES; mutex++)
        tell("mutex normal = m%u\n", pif_add_mutex(&core, PIF_NORMAL, false).number);
}

/* THE TESTS */

static void holder_is_boosted(void)
{
    lock(1, 1);
    lock(2, 1);
    lock(3, 1);
    unlock(1, 1);
    unlock(3, 1);
    unlock(2, 1);
}

static void boost_reaches_through_a_chain(void)
{
    lock(1, 1);
    lock(2, 2);
    lock(2, 1);
    lock(4, 3);
    lock(4, 2);
    lock(3, 3);
    unlock(1, 1);
    unlock(2, 2);
    unlock(4, 3);
}

static bool passes(const char *name, void (*test)(void))
{
    differs = false;
    begin_test();
    test();
    pif_core_free(&core);
    printf("%s %s\n", differs ? "FAILED" : "ok", name);
    return !differs;
}

/* What the library says of itself: proved, or checked as it runs. */
const char *pif_made(void);

int main(int count, char **words)
{
    printf("on %s\n", pif_made());
    forgets_a_boost = count == 2 && strcmp(words[1], "forgets_a_boost") == 0;
    wakes_the_first = count == 2 && strcmp(words[1], "wakes_the_first") == 0;
    bool boosted = passes("holder_is_boosted", holder_is_boosted);
    bool chained = passes("boost_reaches_through_a_chain", boost_reaches_through_a_chain);
    return boosted && chained ? 0 : 1;
}
