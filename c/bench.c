/* Nanoseconds of an event through the library, and of an uncontended pair, lock and unlock, by whole calls: the least of
   many short rounds, to which the machine adds least of its own, and their median.

       bench [ROUNDS]      1001 by default; the status is 1 if that is no number, or a core can't be made */
#include <stdio.h>
#include <stdlib.h>
#include <time.h>

#include "pif.h"

enum { ROUNDS = 1001, MOST_ROUNDS = 100000, TIMES = 500 };

/* One round on thread 1 and mutex 1: nanoseconds of one event, or of one pair. */
typedef double round_of(pif_core *core);

static double now(void)
{
    struct timespec time;

    clock_gettime(CLOCK_MONOTONIC, &time);
    return (double)time.tv_sec * 1e9 + (double)time.tv_nsec;
}

/* A call by single events: how many there were. */
static unsigned long events_of(pif_core *core, pif_request request)
{
    unsigned long events = 2;

    pif_begin(core, 1, request);
    while (pif_go(core, 1).what == PIF_WENT)
        events++;
    return events;
}

static double event(pif_core *core)
{
    unsigned long events = 0;
    double began = now();

    for (int i = 0; i < TIMES; i++)
        events += events_of(core, pif_lock(1)) + events_of(core, pif_unlock(1));
    return (now() - began) / (double)events;
}

static double pair(pif_core *core)
{
    double began = now();

    for (int i = 0; i < TIMES; i++) {
        pif_call(core, 1, pif_lock(1));
        pif_call(core, 1, pif_unlock(1));
    }
    return (now() - began) / TIMES;
}

static int compare(const void *one, const void *other)
{
    double first = *(const double *)one, second = *(const double *)other;

    return (first > second) - (first < second);
}

/* Measures so many rounds on a core of one thread and one mutex. False if there is no core. */
static bool measure(const char *name, round_of *round, bool robust, long rounds)
{
    static double took[MOST_ROUNDS];
    pif_core core = {0};

    if (pif_core_new(&core, 1, 1, 0, 1) != PIF_OK)
        return false;
    pif_add_thread(&core, 10);
    pif_add_mutex(&core, PIF_NORMAL, robust);
    for (long i = 0; i < rounds; i++)
        took[i] = round(&core);
    pif_core_free(&core);
    qsort(took, (size_t)rounds, sizeof took[0], compare);
    printf("%s: %.1f ns, median %.1f ns\n", name, took[0], took[rounds / 2]);
    return true;
}

int main(int count, char **words)
{
    char *end = "";
    long rounds = count > 1 ? strtol(words[1], &end, 10) : ROUNDS;

    if (*end != '\0' || rounds < 1 || rounds > MOST_ROUNDS)
        return 1;
    return measure("event", event, false, rounds) && measure("stalled_pair", pair, false, rounds)
                   && measure("robust_pair", pair, true, rounds)
               ? 0
               : 1;
}
