/* What a thread of the hammer does. It takes mutexes in rising order, so that no circle of threads waits, and gives
   them up in falling order. */
#include <errno.h>
#include <time.h>

#include "hammer.h"

enum { MOST_HELD = 3, SPIN = 200, MOST_MICROSECONDS = 2000, MICROSECONDS_OF_REST = 50 };

static uint64_t next_random(Slot *slot)
{
    slot->random ^= slot->random << 13;
    slot->random ^= slot->random >> 7;
    slot->random ^= slot->random << 17;
    return slot->random;
}

unsigned choose(Slot *slot, unsigned below) { return (unsigned)((next_random(slot) >> 16) % below); }

bool happens(Slot *slot, unsigned per_cent) { return choose(slot, 100) < per_cent; }

static int note(Slot *slot, int answer)
{
    if (answer >= 0 && answer < MOST_ANSWERS)
        atomic_fetch_add(&answers[answer], 1);
    if (slot->left > 0)
        slot->left--;
    return answer;
}

static unsigned soon(Slot *slot) { return choose(slot, MOST_MICROSECONDS); }

/* The mutex is this thread's, but its last owner ended. Now and then that isn't mended, and the mutex is lost. */
static void mend(Slot *slot, unsigned which)
{
    if (!happens(slot, 3))
        note(slot, pthread_mutex_consistent(&mutexes[which].mutex));
}

static int ask(Slot *slot, unsigned which)
{
    if (happens(slot, orders.trylocks))
        return calls->trylock(which);
    if (!happens(slot, orders.timed) || calls->timedlock == NULL)
        return calls->lock(which);
    return calls->timedlock(which, soon(slot));
}

static void take(Slot *slot, unsigned which)
{
    int answer = note(slot, ask(slot, which));

    if (answer != 0 && answer != EOWNERDEAD)
        return;
    slot->held[which]++;
    if (answer == EOWNERDEAD)
        mend(slot, which);
}

static void give_up(Slot *slot, unsigned which)
{
    slot->held[which]--;
    note(slot, calls->unlock(which));
}

static int wait_on(Slot *slot, unsigned variable, unsigned which)
{
    if (!happens(slot, orders.timed))
        return calls->wait(variable, which);
    return calls->timedwait(variable, which, soon(slot));
}

/* Variable v is of mutex v, counted round. */
static void wait_with(Slot *slot, unsigned which)
{
    unsigned variable = which + orders.mutexes * choose(slot, (orders.variables - 1 - which) / orders.mutexes + 1);

    atomic_fetch_add(&waiting[variable], 1);
    int answer = note(slot, wait_on(slot, variable, which));
    atomic_fetch_sub(&waiting[variable], 1);
    if (answer == ENOTRECOVERABLE)
        slot->held[which] = 0;
    else if (answer == EOWNERDEAD)
        mend(slot, which);
}

static void use_variable(Slot *slot)
{
    unsigned variable = choose(slot, orders.variables);

    note(slot, happens(slot, 70) ? calls->signal(variable) : calls->broadcast(variable));
}

static void set_priority(Slot *slot)
{
    note(slot, pthread_setschedprio(pthread_self(), 10 + (int)choose(slot, MOST_THREADS)));
}

/* The number of the highest that is held, from 1; 0 if none is. */
static unsigned highest(const Slot *slot)
{
    unsigned found = 0;

    for (unsigned which = 0; which < orders.mutexes; which++)
        if (slot->held[which] > 0)
            found = which + 1;
    return found;
}

/* Of a library an unlock by another thread is undefined. */
static bool knows_its_owner(const Mutex *mutex)
{
    return orders.library == NULL && (mutex->is_robust || mutex->type != PTHREAD_MUTEX_NORMAL);
}

/* What can be asked again of a mutex that this thread holds. */
static void take_again(Slot *slot, unsigned which)
{
    if (mutexes[which].type == PTHREAD_MUTEX_NORMAL)
        note(slot, calls->trylock(which));
    else if (slot->held[which] < MOST_HELD)
        take(slot, which);
}

static void do_with_none(Slot *slot)
{
    unsigned which = choose(slot, orders.mutexes);

    if (orders.variables > 0 && happens(slot, orders.waits))
        use_variable(slot);
    else if (knows_its_owner(&mutexes[which]) && happens(slot, 3))
        note(slot, calls->unlock(which));
    else if (orders.fifo && happens(slot, orders.priorities))
        set_priority(slot);
    else
        take(slot, which);
}

static void do_with_some(Slot *slot, unsigned which)
{
    if (slot->held[which] == 1 && which < orders.variables && happens(slot, orders.waits))
        wait_with(slot, which);
    else if (which + 1 < orders.mutexes && happens(slot, 20))
        take(slot, which + 1 + choose(slot, orders.mutexes - which - 1));
    else if (happens(slot, 10))
        take_again(slot, which);
    else
        give_up(slot, which);
}

static void spin(Slot *slot)
{
    for (volatile unsigned left = choose(slot, SPIN); left > 0; left--)
        ;
}

/* A robust mutex may be left to the end of the thread. */
static void give_all_up(Slot *slot, bool but_robust)
{
    for (unsigned which = orders.mutexes; which-- > 0;)
        while (slot->held[which] > 0 && !(but_robust && mutexes[which].is_robust))
            give_up(slot, which);
}

/* No call of it is open meanwhile. */
static void rest(void)
{
    struct timespec pause = {0, 1000L * MICROSECONDS_OF_REST};

    atomic_fetch_add(&resting, 1);
    while (atomic_load(&is_resting))
        nanosleep(&pause, NULL);
    atomic_fetch_sub(&resting, 1);
}

void *work(void *value)
{
    Slot *slot = value;
    bool ends = false;

    name_thread(slot->number + 1);
    while (slot->left > 0 && !ends) {
        unsigned which = highest(slot);
        if (which == 0 && atomic_load(&is_resting))
            rest();
        if (which == 0)
            do_with_none(slot);
        else
            do_with_some(slot, which - 1);
        spin(slot);
        ends = happens(slot, orders.ends);
    }
    give_all_up(slot, ends);
    atomic_store(&slot->has_ended, true);
    return NULL;
}
