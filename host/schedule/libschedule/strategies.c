/* Who goes next, if no schedule says so. */
#define _GNU_SOURCE
#include <stdlib.h>

#include "schedule.h"

enum { MOST_CHANGES = 64 };

static const uint64_t high_ranks = UINT64_C(1) << 32;

static uint64_t state; /* of the numbers that are drawn */
static uint64_t changes[MOST_CHANGES], change_count, next_change;
static uint64_t low_rank; /* below all that were given */

/* splitmix64: https://prng.di.unimi.it/splitmix64.c */
static uint64_t draw(void)
{
    uint64_t mixed = (state += UINT64_C(0x9e3779b97f4a7c15));

    mixed = (mixed ^ (mixed >> 30)) * UINT64_C(0xbf58476d1ce4e5b9);
    mixed = (mixed ^ (mixed >> 27)) * UINT64_C(0x94d049bb133111eb);
    return mixed ^ (mixed >> 31);
}

/* A number from 0 on, below this one. */
uint32_t draw_below(uint32_t bound) { return (uint32_t)((draw() >> 32) * bound >> 32); }

static int by_size(const void *left, const void *right)
{
    const uint64_t *a = left, *b = right;

    return (*a > *b) - (*a < *b);
}

/* PCT (Burckhardt et al., ASPLOS 2010): the thread of greatest rank goes, and at depth - 1 points that are drawn the
   one that goes gets a rank below all others. */
void begin_strategy(void)
{
    state = options.seed;
    low_rank = high_ranks - 1;
    change_count = options.depth < 1 ? 0 : options.depth - 1;
    if (change_count > MOST_CHANGES)
        change_count = MOST_CHANGES;
    for (uint64_t i = 0; i < change_count; i++)
        changes[i] = 1 + draw_below((uint32_t)options.length);
    qsort(changes, change_count, sizeof *changes, by_size);
}

void rank_new(Thread *thread) { thread->rank = high_ranks + (draw() >> 32); }

void rank_last(Thread *thread) { thread->rank = low_rank--; }

/* Those that can go, as libpif takes them. */
static pif_candidate candidates[MOST_THREADS];

static void name_candidates(const Threads *can)
{
    for (uint32_t i = 0; i < can->count; i++)
        candidates[i] = (pif_candidate){.thread = can->at[i]->number, .rank = can->at[i]->rank};
}

/* The thread that libpif has chosen. It chooses one, since some can go. */
static Thread *thread_chosen(pif_number chosen) { return &threads[chosen.number]; }

/* The thread that a schedule names; NULL: it can't go. One that can go stays chosen. */
Thread *choose_named(const Threads *can, uint32_t number)
{
    name_candidates(can);
    pif_number chosen = pif_choose_staying(number, candidates, can->count);
    return chosen.result == PIF_OK && chosen.number == number ? thread_chosen(chosen) : NULL;
}

static Thread *choose_drawn(const Threads *can)
{
    name_candidates(can);
    return thread_chosen(pif_choose_drawn(draw_below(can->count), candidates, can->count));
}

static Thread *of_greatest_rank(const Threads *can)
{
    name_candidates(can);
    return thread_chosen(pif_choose_ranked(candidates, can->count));
}

static Thread *choose_by_rank(const Threads *can, uint64_t point)
{
    for (; next_change < change_count && changes[next_change] <= point; next_change++)
        rank_last(of_greatest_rank(can));
    return of_greatest_rank(can);
}

/* As SCHED_FIFO on one processor: the core's choice, if that thread can go. The core knows nothing of sleeps: else one of
   the greatest priority goes, the present thread first. */
static Thread *choose_by_priority(const Threads *can, const Thread *present)
{
    pif_number next = picked();

    name_candidates(can);
    for (uint32_t i = 0; i < can->count; i++) {
        const Thread *thread = can->at[i];
        bool is_picked = next.result == PIF_OK && next.number == thread->number;
        candidates[i].rank = is_picked ? UINT64_MAX : 2 * (uint64_t)priority_of(thread->number) + (thread == present);
    }
    return thread_chosen(pif_choose_ranked(candidates, can->count));
}

/* The present thread goes on as long as it can; then the next one by number. */
static Thread *choose_staying(const Threads *can, const Thread *present)
{
    name_candidates(can);
    return thread_chosen(pif_choose_staying(present->number, candidates, can->count));
}

Thread *choose_by_strategy(const Threads *can, Thread *present, uint64_t point)
{
    switch (options.strategy) {
    case RANDOM:
        return choose_drawn(can);
    case PCT:
        return choose_by_rank(can, point);
    case PICK:
        return choose_by_priority(can, present);
    default:
        return choose_staying(can, present);
    }
}
