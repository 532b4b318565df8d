/* Probes of pthreads: owners that end, kinds, and priorities. */
#include "probe.h"

#include <errno.h>
#include <stddef.h>

static int consistent(unsigned mutex) { return pthread_mutex_consistent(&mutexes[mutex].mutex); }

static void takes_and_ends(void)
{
    calls->lock(0);
}

static void end_an_owner(void)
{
    go(takes_and_ends, OTHER, ANY_PROCESSOR);
    join_all();
}

/* The owner ends while one sleeps in lock, and another one tries. */
static void ends_as_owner(void)
{
    calls->lock(0);
    set(1);
    await(2);
    rest(2000);
    set(3);
}

static void sleeps_and_mends(void)
{
    await(1);
    set(2);
    int answer = calls->lock(0);
    bool is_had = has(answer, 0);
    rest(300);
    if (is_had)
        calls->unlock(0);
}

static void tries_and_mends(void)
{
    bool is_had = false;

    watch(3);
    for (int left = 60; left > 0 && !is_had; left--) {
        is_had = has(calls->trylock(0), 0);
        spin(300);
    }
    rest(500);
    if (is_had)
        calls->unlock(0);
}

static void owner_ends(void)
{
    go(ends_as_owner, OTHER, ANY_PROCESSOR);
    go(sleeps_and_mends, OTHER, ANY_PROCESSOR);
    go(tries_and_mends, OTHER, ANY_PROCESSOR);
}

/* The owner ends with two mutexes. Another one sees one of them passed on, and tries the second. */
static unsigned first_tried;

static void ends_with_two(void)
{
    calls->lock(0);
    calls->lock(1);
    set(1);
    await(2);
    rest(1000);
    set(3);
}

static void tries_one_and_then_the_other(void)
{
    unsigned one = first_tried, other = 1 - first_tried;
    int answer = EBUSY;

    await(1);
    set(2);
    watch(3);
    for (int left = 300; left > 0 && answer == EBUSY; left--) {
        answer = calls->trylock(one);
        spin(30);
    }
    int next = calls->trylock(other);
    spin(20000);
    give_up(answer, one);
    give_up(next, other);
}

static void owner_ends_with_two(void)
{
    first_tried = pick(2);
    go(ends_with_two, OTHER, ANY_PROCESSOR);
    go(tries_one_and_then_the_other, OTHER, ANY_PROCESSOR);
}

static void sleeps_for_the_second(void)
{
    await(1);
    give_up(calls->timedlock(1, 4000), 1);
}

static void owner_ends_with_two_and_one_waits(void)
{
    first_tried = 0;
    go(ends_with_two, OTHER, ANY_PROCESSOR);
    go(sleeps_for_the_second, OTHER, ANY_PROCESSOR);
    await(1);
    rest(400);
    go(tries_one_and_then_the_other, OTHER, ANY_PROCESSOR);
}

/* The waiter of the mutex that passes on first keeps the processor of the thread that ends. So it finds the other mutex
   held, though its own has passed on. */
static void ends_with_two_and_a_waiter(void)
{
    calls->lock(0);
    calls->lock(1);
    set(1);
    rest(3000);
}

static void goes_on_and_tries_the_other(void)
{
    await(1);
    int answer = calls->lock(1), other = calls->trylock(0);

    give_up(other, 0);
    give_up(answer, 1);
}

static void mutexes_of_an_end_pass_on_apart(void)
{
    go(ends_with_two_and_a_waiter, MIDDLE, 0);
    go(goes_on_and_tries_the_other, MIDDLE + 10, 0);
}

/* A wait by the owner of an inconsistent mutex. */
static void waits_while_inconsistent(void)
{
    calls->lock(0);
    calls->timedwait(0, 0, 2000);
    calls->unlock(0);
}

static void tries_twice(void)
{
    calls->trylock(0);
    calls->trylock(0);
}

static void wait_while_inconsistent(void)
{
    end_an_owner();
    go(waits_while_inconsistent, OTHER, ANY_PROCESSOR);
    join_all();
    go(tries_twice, OTHER, ANY_PROCESSOR);
}

/* The mutex of an owner that ended is given up as it is: nobody gets it again. Each asks in its own way. */
static void loses_it(void)
{
    calls->lock(0);
    calls->unlock(0);
}

static void tries_it(void) { calls->trylock(0); }

static void locks_it(void) { calls->lock(0); }

static void locks_it_in_time(void) { calls->timedlock(0, 500); }

static void lost_for_good(void)
{
    static void (*const ways[])(void) = {tries_it, locks_it, locks_it_in_time};

    end_an_owner();
    go(loses_it, OTHER, ANY_PROCESSOR);
    join_all();
    for (int left = 4; left > 0; left--) {
        go(ways[pick(3)], OTHER, ANY_PROCESSOR);
        join_all();
    }
}

/* Several want a mutex at once that is lost. */
static void asks_often(void)
{
    await(1);
    for (int left = 6; left > 0; left--) {
        calls->trylock(0);
        spin(pick(100));
        calls->timedlock(0, 300);
    }
}

static void lost_and_wanted_by_two(void)
{
    end_an_owner();
    go(loses_it, OTHER, ANY_PROCESSOR);
    join_all();
    go(asks_often, OTHER, ANY_PROCESSOR);
    go(asks_often, OTHER, ANY_PROCESSOR);
    set(1);
}

/* Making consistent: of a mutex that is free, by another one, and by the owner. */
static void mends_it(void) { consistent(0); }

static void holds_inconsistent(void)
{
    calls->lock(0);
    set(1);
    await(2);
    calls->unlock(0);
}

static void mends_that_of_another(void)
{
    await(1);
    consistent(0);
    calls->trylock(0);
    set(2);
}

static void consistent_when_free(void)
{
    end_an_owner();
    go(mends_it, OTHER, ANY_PROCESSOR);
    join_all();
    go(loses_it, OTHER, ANY_PROCESSOR);
    join_all();
    go(tries_it, OTHER, ANY_PROCESSOR);
}

static void consistent_by_another(void)
{
    end_an_owner();
    go(holds_inconsistent, OTHER, ANY_PROCESSOR);
    go(mends_that_of_another, OTHER, ANY_PROCESSOR);
    join_all();
    go(tries_it, OTHER, ANY_PROCESSOR);
}

/* The owner of an inconsistent mutex locks it again, and gives it up as often. */
static void holds_inconsistent_twice(void)
{
    int first = calls->lock(0), second = calls->trylock(0);

    if (second == 0)
        calls->unlock(0);
    if (first == EOWNERDEAD)
        consistent(0);
    calls->unlock(0);
}

static void inconsistent_held_twice(void)
{
    end_an_owner();
    go(holds_inconsistent_twice, OTHER, ANY_PROCESSOR);
    join_all();
    go(tries_it, OTHER, ANY_PROCESSOR);
}

/* A wait that is signalled by an owner that then ends. */
static void waits_and_mends(void)
{
    calls->lock(0);
    set(1);
    give_up(calls->timedwait(0, 0, 20000), 0);
}

static void signals_and_ends(void)
{
    await(1);
    calls->lock(0);
    set(2);
    calls->signal(0);
    rest(pick(300));
}

static void tries_around_the_end(void)
{
    await(2);
    for (int left = 20; left > 0; left--) {
        give_up(calls->trylock(0), 0);
        spin(pick(3000));
    }
}

static void signaller_ends(void)
{
    go(waits_and_mends, OTHER, ANY_PROCESSOR);
    go(signals_and_ends, OTHER, ANY_PROCESSOR);
    go(tries_around_the_end, OTHER, ANY_PROCESSOR);
}

/* What an owner is answered by its own mutex. */
static void asks_its_own(void)
{
    unsigned held = calls->lock(0) == 0;

    held += calls->trylock(0) == 0;
    held += calls->timedlock(0, 500) == 0;
    consistent(0);
    while (held-- > 0)
        calls->unlock(0);
    give_up(calls->trylock(0), 0);
}

static void own_mutex(void) { go(asks_its_own, OTHER, ANY_PROCESSOR); }

/* The next owner can't run yet, and the old one tries and locks again. */
static void locks_again(void)
{
    calls->lock(0);
    set(1);
    await(2);
    rest(1000);
    calls->unlock(0);
    if (calls->trylock(0) == 0)
        calls->unlock(0);
    calls->lock(0);
    calls->unlock(0);
}

static void next_owner_has_not_run(void)
{
    go(locks_again, 50, 0);
    go(sleeps_and_mends, 10, 0);
}

/* The lesser thread waits first, and the greater one is there when one of them is signalled. */
static void waits_as_lesser(void)
{
    calls->lock(0);
    set(1);
    calls->timedwait(0, 0, 25000);
    calls->unlock(0);
}

static void waits_as_greater(void)
{
    await(1);
    calls->lock(0);
    set(2);
    calls->timedwait(0, 0, 12000);
    calls->unlock(0);
}

static void signals_one(void)
{
    await(2);
    rest(1000);
    calls->lock(0);
    calls->signal(0);
    calls->unlock(0);
}

static void waits_of_two_priorities(void)
{
    go(waits_as_lesser, 10, ANY_PROCESSOR);
    go(waits_as_greater, 20, ANY_PROCESSOR);
    go(signals_one, 30, ANY_PROCESSOR);
}

/* Two lesser threads wait, one is signalled, and a greater one waits. */
static void waits_second(void)
{
    await(1);
    calls->lock(0);
    set(2);
    calls->timedwait(0, 0, 25000);
    calls->unlock(0);
}

static void waits_greater_and_later(void)
{
    await(3);
    calls->lock(0);
    set(4);
    calls->timedwait(0, 0, 8000);
    calls->unlock(0);
}

static void signals_two(void)
{
    await(2);
    rest(1000);
    calls->lock(0);
    calls->signal(0);
    calls->unlock(0);
    set(3);
    await(4);
    rest(1000);
    calls->lock(0);
    calls->signal(0);
    calls->unlock(0);
}

static void greater_waits_behind_a_signal(void)
{
    go(waits_as_lesser, 10, ANY_PROCESSOR);
    go(waits_second, 10, ANY_PROCESSOR);
    go(waits_greater_and_later, 20, ANY_PROCESSOR);
    go(signals_two, 30, ANY_PROCESSOR);
}

/* A stalled mutex, whose owner has ended. */
static void stalled_owner_ended(void)
{
    end_an_owner();
    go(locks_it_in_time, OTHER, ANY_PROCESSOR);
    join_all();
    go(tries_it, OTHER, ANY_PROCESSOR);
}

const Probe probes_of_ends[] = {
    {"owner_ends", 3, 1, 0, 1, PTHREADS | ROBUST, owner_ends},
    {"owner_ends_with_two", 2, 2, 0, 1, PTHREADS | ROBUST, owner_ends_with_two},
    {"owner_ends_with_two_and_one_waits", 3, 2, 0, 1, PTHREADS | ROBUST, owner_ends_with_two_and_one_waits},
    {"mutexes_of_an_end_pass_on_apart", 2, 2, 0, 1, PTHREADS | ROBUST | FIFO, mutexes_of_an_end_pass_on_apart},
    {"wait_while_inconsistent", 3, 1, 1, 1, PTHREADS | ROBUST, wait_while_inconsistent},
    {"lost_for_good", 6, 1, 0, 1, PTHREADS | ROBUST, lost_for_good},
    {"lost_and_wanted_by_two", 4, 1, 0, 1, PTHREADS | ROBUST, lost_and_wanted_by_two},
    {"consistent_when_free", 4, 1, 0, 1, PTHREADS | ROBUST, consistent_when_free},
    {"consistent_by_another", 4, 1, 0, 1, PTHREADS | ROBUST, consistent_by_another},
    {"inconsistent_held_twice", 3, 1, 0, 1, PTHREADS | ROBUST | RECURSION, inconsistent_held_twice},
    {"signaller_ends", 3, 1, 1, 1, PTHREADS | ROBUST, signaller_ends},
    {"own_mutex", 1, 1, 0, 1, PTHREADS, own_mutex},
    {"next_owner_has_not_run", 2, 1, 0, 1, PTHREADS | FIFO, next_owner_has_not_run},
    {"waits_of_two_priorities", 3, 1, 1, 1, PTHREADS | FIFO, waits_of_two_priorities},
    {"greater_waits_behind_a_signal", 4, 1, 1, 1, PTHREADS | FIFO, greater_waits_behind_a_signal},
    {"stalled_owner_ended", 3, 1, 0, 1, PTHREADS, stalled_owner_ended},
    {NULL, 0, 0, 0, 0, 0, NULL},
};
