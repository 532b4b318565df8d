/* The first log of docs/JUDGE.md: threads and a lock of one's own, which lends priorities.

       first_log          two threads use it
       first_log looks    four threads do, of priorities 1 to 4, and who waits and with which priority is logged, too
       first_log wrong    the same, but an unlock gives the lock to the waiter of the least priority

   Whatever a call does falls under one spin lock, and the looks are logged there. */
#include <pthread.h>
#include <sched.h>
#include <stdatomic.h>
#include <stdbool.h>
#include <stdio.h>
#include <string.h>

#define PIF_RECORD_LINES 8192

enum { NOBODY = 0, MOST_THREADS = 4 };

static bool is_looking, is_wrong;
static unsigned threads = 2;
static atomic_uint started;
static _Thread_local unsigned self; /* from 1 */

static atomic_flag inside = ATOMIC_FLAG_INIT;
static atomic_uint owner;
static bool waits[MOST_THREADS + 1];

static unsigned priority(unsigned thread) { return is_looking ? thread : 1; }

/* The waiter of the greatest priority, or of the least one. Without looks there is one at most. */
static unsigned waiter(bool is_greatest)
{
    unsigned found = NOBODY;

    for (unsigned thread = 1; thread <= threads; thread++)
        if (waits[thread] && (found == NOBODY || is_greatest))
            found = thread;
    return found;
}

static void look(void);

static void enter(void)
{
    while (atomic_flag_test_and_set(&inside))
        sched_yield();
}

static void leave(void) { atomic_flag_clear(&inside); }

static void my_lock(void)
{
    enter();
    if (atomic_load(&owner) == NOBODY)
        atomic_store(&owner, self);
    else
        waits[self] = true;
    look();
    leave();
    while (atomic_load(&owner) != self)
        sched_yield();
}

static void my_unlock(void)
{
    unsigned next;

    enter();
    next = waiter(!is_wrong);
    waits[next] = false;
    atomic_store(&owner, next);
    look();
    leave();
}

static atomic_ulong places;
#define PIF_COUNTER() (atomic_fetch_add(&places, 1) + 1)
#define PIF_RECORD_HERE
#include "pif_record.h"

static void logged_lock(unsigned thread)
{
    PIF_BEGIN(thread, "lock m%u", 1u);
    my_lock();
    PIF_ANSWER(thread, 0);
}

static void logged_unlock(unsigned thread)
{
    PIF_BEGIN(thread, "unlock m%u", 1u);
    my_unlock();
    PIF_ANSWER(thread, 0);
}

/* Under the spin lock, as the places of its lines are. */
static void look(void)
{
    unsigned first = waiter(true), holder = atomic_load(&owner);

    for (unsigned thread = 1; is_looking && thread <= threads; thread++)
        if (waits[thread])
            PIF_LINE("rests t%u", thread);
    if (is_looking && holder != NOBODY)
        PIF_LINE("prio t%u %u", holder, priority(first > holder ? first : holder));
}

static void *work(void *number)
{
    self = (unsigned)(unsigned long)number;
    atomic_fetch_add(&started, 1);
    while (atomic_load(&started) < threads)
        sched_yield();
    for (int left = is_looking ? 100 : 20; left > 0; left--) {
        logged_lock(self);
        sched_yield();
        logged_unlock(self);
    }
    return NULL;
}

static void put(char character) { putchar(character); }

int main(int count, char **words)
{
    pthread_t runs[MOST_THREADS];

    is_wrong = count == 2 && strcmp(words[1], "wrong") == 0;
    is_looking = is_wrong || (count == 2 && strcmp(words[1], "looks") == 0);
    PIF_ADD("thread %u", priority(1)); /* t1, of priority 1 */
    PIF_ADD("thread %u", priority(2)); /* t2 */
    PIF_ADD("mutex normal");           /* m1 */
    PIF_ADD("# m1 is my_lock");
    while (is_looking && threads < MOST_THREADS)
        PIF_ADD("thread %u", priority(++threads));
    for (unsigned long thread = 1; thread <= threads; thread++)
        pthread_create(&runs[thread - 1], NULL, work, (void *)thread);
    for (unsigned thread = 1; thread <= threads; thread++)
        pthread_join(runs[thread - 1], NULL);
    return pif_dump(put) == 0 && fflush(stdout) == 0 && !ferror(stdout) ? 0 : 1;
}
