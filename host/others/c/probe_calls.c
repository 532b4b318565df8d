/* Probes of all mutexes and variables, by the calls of the hammer. Each is a round of two or three threads. */
#include "probe.h"

#include <errno.h>
#include <stddef.h>

enum { HOLDS = 300 };

static unsigned ends_at;

/* A signal at the moment at which the first of two waits runs out of time. The signaller has the mutex. */
static void waits_briefly(void)
{
    calls->lock(0);
    ends_at = now() + 2500;
    set(1);
    calls->timedwait(0, 0, 2500);
    calls->unlock(0);
}

static void waits_longer(void)
{
    await(1);
    calls->lock(0);
    set(2);
    calls->timedwait(0, 0, 9000);
    calls->unlock(0);
}

static void signals_then(void)
{
    await(2);
    until(ends_at + pick(120) - 10);
    calls->lock(0);
    calls->signal(0);
    calls->unlock(0);
}

static void signal_at_a_timeout(void)
{
    go(waits_briefly, OTHER, ANY_PROCESSOR);
    go(waits_longer, OTHER, ANY_PROCESSOR);
    go(signals_then, OTHER, ANY_PROCESSOR);
}

/* The first sleeper is woken and can't run, since the holder keeps its processor. Then the timed lock runs out of time,
   while nobody has the mutex. All have one priority. */
static void sleeps(void)
{
    await(1);
    set(2);
    calls->lock(0);
    calls->unlock(0);
}

static void is_timed(void)
{
    await(2);
    rest(500);
    set(3);
    int answer = calls->timedlock(0, 5000);
    set(4);
    if (answer == 0)
        calls->unlock(0);
}

static void keeps_the_processor(void)
{
    calls->lock(0);
    set(1);
    await(3);
    rest(2500);
    unsigned latest = now() + 20000;
    calls->unlock(0);
    while (atomic_load(&stage) < 4 && (int)(latest - now()) > 0)
        ;
    if (calls->trylock(0) == 0)
        calls->unlock(0);
}

static void timed_lock_of_pinned_threads(void)
{
    go(keeps_the_processor, MIDDLE, 0);
    go(sleeps, MIDDLE, 0);
    go(is_timed, MIDDLE, 1);
}

/* One sleeps in lock, and another one tries while the owner gives the mutex up. */
static void holds_a_while(void)
{
    calls->lock(0);
    set(1);
    await(2);
    rest(1000);
    set(3);
    calls->unlock(0);
}

static void tries_often(void)
{
    watch(3);
    for (int left = 30; left > 0; left--) {
        if (calls->trylock(0) == 0) {
            spin(300);
            calls->unlock(0);
        }
        spin(pick(300));
    }
}

static void one_sleeps_and_one_tries(void)
{
    go(holds_a_while, OTHER, ANY_PROCESSOR);
    go(sleeps, OTHER, ANY_PROCESSOR);
    go(tries_often, OTHER, ANY_PROCESSOR);
}

/* Each has a mutex, and wants that of the other one. */
static void wants_the_second(void)
{
    calls->lock(0);
    set(atomic_load(&stage) + 1);
    await(2);
    if (calls->timedlock(1, 5000) == 0)
        calls->unlock(1);
    calls->unlock(0);
}

static void wants_the_first(void)
{
    await(1);
    calls->lock(1);
    set(2);
    rest(500);
    if (calls->timedlock(0, 3000) == 0)
        calls->unlock(0);
    calls->unlock(1);
}

static void cycle_with_deadlines(void)
{
    go(wants_the_second, OTHER, ANY_PROCESSOR);
    go(wants_the_first, OTHER, ANY_PROCESSOR);
}

static void holds_often(void)
{
    unsigned held = 0;

    while (held < HOLDS && calls->lock(0) == 0)
        held++;
    while (held-- > 0)
        calls->unlock(0);
}

static void held_300_times(void) { go(holds_often, OTHER, ANY_PROCESSOR); }

/* A wait with a mutex that is held twice, and whether another one can have it meanwhile. */
static void waits_with_two_holds(void)
{
    calls->lock(0);
    calls->lock(0);
    set(1);
    calls->timedwait(0, 0, 20000);
    calls->unlock(0);
    calls->unlock(0);
}

static void tries_meanwhile(void)
{
    int answer = EBUSY;

    await(1);
    for (int left = 5; left > 0 && answer != 0; left--) {
        rest(2000);
        answer = calls->trylock(0);
    }
    if (answer == 0)
        calls->unlock(0);
}

static void wait_with_two_holds(void)
{
    go(waits_with_two_holds, OTHER, ANY_PROCESSOR);
    go(tries_meanwhile, OTHER, ANY_PROCESSOR);
}

const Probe probes_of_calls[] = {
    {"signal_at_a_timeout", 3, 1, 1, 1, 0, signal_at_a_timeout},
    {"timed_lock_of_pinned_threads", 3, 1, 0, 1, DEADLINES | FIFO, timed_lock_of_pinned_threads},
    {"one_sleeps_and_one_tries", 3, 1, 0, 2, 0, one_sleeps_and_one_tries},
    {"cycle_with_deadlines", 2, 2, 0, 1, DEADLINES, cycle_with_deadlines},
    {"held_300_times", 1, 1, 0, 1, RECURSION, held_300_times},
    {"wait_with_two_holds", 2, 1, 1, 1, RECURSION, wait_with_two_holds},
    {NULL, 0, 0, 0, 0, 0, NULL},
};
