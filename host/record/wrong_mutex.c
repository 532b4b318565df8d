/* A small mutex with priority inheritance that can be made wrong, recorded by pif_record.h.

   The threads are numbers, and no two run at once, so that priorities may be looked at between any two calls. */
#include <stdbool.h>
#include <stdio.h>
#include <string.h>

static unsigned long places;

#define PIF_COUNTER() (++places)
#define PIF_RECORD_HERE
#include "pif_record.h"

enum { THREADS = 4, MUTEXES = 2, NOBODY = 0, NO_MUTEX = 0, BUSY = 16 };

/* What is wrong with it. */
static bool forgets_a_boost, wakes_two;

/* From 1; the place 0 is nobody's. */
static unsigned base[THREADS + 1] = {0, 10, 20, 30, 25};
static unsigned effective[THREADS + 1];
static unsigned waits_for[THREADS + 1];
static unsigned owner[MUTEXES + 1];

static void look_at_priorities(void)
{
    for (unsigned thread = 1; thread <= THREADS; thread++)
        PIF_LINE("prio t%u %u", thread, effective[thread]);
}

/* Along the chain of owners; the wrong one stops after the first. */
static void boost(unsigned mutex, unsigned priority)
{
    unsigned thread = owner[mutex];

    while (thread != NOBODY) {
        if (effective[thread] < priority)
            effective[thread] = priority;
        thread = forgets_a_boost ? NOBODY : owner[waits_for[thread]];
    }
}

static unsigned greatest_waiter(unsigned mutex)
{
    unsigned found = NOBODY;

    for (unsigned thread = 1; thread <= THREADS; thread++)
        if (waits_for[thread] == mutex && (found == NOBODY || effective[thread] > effective[found]))
            found = thread;
    return found;
}

/* What a thread has from itself and from who waits for its mutexes. */
static void reckon(unsigned thread)
{
    effective[thread] = base[thread];
    for (unsigned mutex = 1; mutex <= MUTEXES; mutex++) {
        unsigned waiter = owner[mutex] == thread ? greatest_waiter(mutex) : NOBODY;
        if (waiter != NOBODY && effective[waiter] > effective[thread])
            effective[thread] = effective[waiter];
    }
}

static void lock(unsigned thread, unsigned mutex)
{
    PIF_BEGIN(thread, "lock m%u", mutex);
    if (owner[mutex] == NOBODY) {
        owner[mutex] = thread;
        PIF_ANSWER(thread, 0);
    } else {
        waits_for[thread] = mutex;
        boost(mutex, effective[thread]);
    }
    look_at_priorities();
}

static void trylock(unsigned thread, unsigned mutex)
{
    PIF_BEGIN(thread, "trylock m%u", mutex);
    if (owner[mutex] == NOBODY)
        owner[mutex] = thread;
    PIF_ANSWER(thread, owner[mutex] == thread ? 0 : BUSY);
}

/* The mutex is the woken thread's. */
static unsigned wake(unsigned mutex)
{
    unsigned thread = greatest_waiter(mutex);

    if (thread != NOBODY) {
        waits_for[thread] = NO_MUTEX;
        PIF_ANSWER(thread, 0);
    }
    return thread;
}

static void unlock(unsigned thread, unsigned mutex)
{
    PIF_BEGIN(thread, "unlock m%u", mutex);
    PIF_ANSWER(thread, 0);
    owner[mutex] = wake(mutex);
    if (wakes_two)
        wake(mutex);
    reckon(thread);
    if (owner[mutex] != NOBODY)
        reckon(owner[mutex]);
    look_at_priorities();
}

static void add_all(void)
{
    for (unsigned thread = 1; thread <= THREADS; thread++) {
        PIF_ADD("thread %u", base[thread]);
        effective[thread] = base[thread];
    }
    for (unsigned mutex = 1; mutex <= MUTEXES; mutex++)
        PIF_ADD("mutex normal");
}

/* t1 owns m1, for which t2 waits, which owns m2, for which t3 and t4 wait. */
static void use(void)
{
    lock(1, 1);
    lock(2, 2);
    lock(2, 1);
    lock(3, 2);
    lock(4, 2);
    unlock(1, 1);
    trylock(1, 1);
    unlock(2, 2);
    unlock(3, 2);
    unlock(4, 2);
    unlock(2, 1);
}

static void put(char character) { putchar(character); }

int main(int count, char **words)
{
    forgets_a_boost = count == 2 && strcmp(words[1], "forgets_a_boost") == 0;
    wakes_two = count == 2 && strcmp(words[1], "wakes_two") == 0;
    if (!forgets_a_boost && !wakes_two && (count != 2 || strcmp(words[1], "right") != 0)) {
        printf("wrong_mutex right|forgets_a_boost|wakes_two: prints the history of such a mutex\n");
        return 1;
    }
    add_all();
    use();
    return pif_dump(put) == 0 && fflush(stdout) == 0 && !ferror(stdout) ? 0 : 1;
}
