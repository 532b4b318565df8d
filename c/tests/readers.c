/* What the readers say of owners, healths, states and condition words, through calls of every kind. */
#include "expect.h"

static void expect_owner(int line, pif_core *core, uint32_t mutex, uint32_t result, uint32_t thread, uint32_t count)
{
    pif_owned is = pif_owner(core, mutex);

    expect_true(line, "the owner", is.result == result && is.thread == thread && is.count == count);
}

static void expect_doing(int line, pif_core *core, uint32_t thread, uint32_t result, uint32_t state, uint32_t waits_for)
{
    pif_doing is = pif_status(core, thread);

    expect_true(line, "what it does", is.result == result && is.state == state && is.waits_for == waits_for);
}

#define OWNER(mutex, result, thread, count) expect_owner(__LINE__, core, mutex, result, thread, count)
#define DOES(thread, result, state, waits_for) expect_doing(__LINE__, core, thread, result, state, waits_for)

static void add_all(pif_core *core)
{
    TRUE(pif_core_new(core, 8, 8, 8, 2) == PIF_OK);
    NUMBER(pif_add_thread(core, 10), PIF_OK, 1);
    NUMBER(pif_add_thread(core, 20), PIF_OK, 2);
    NUMBER(pif_add_mutex(core, PIF_RECURSIVE, true), PIF_OK, 1);
    NUMBER(pif_add_mutex(core, PIF_NORMAL, false), PIF_OK, 2);
    NUMBER(pif_add_cond(core, 1), PIF_OK, 1);
}

static void expect_limits(int line, pif_bounds is, uint32_t result, uint32_t threads, uint32_t mutexes, uint32_t conds,
                          uint32_t signals)
{
    expect_true(line, "the limits", is.result == result && is.threads == threads && is.mutexes == mutexes
                && is.conds == conds && is.signals == signals);
}

static void expect_call(int line, pif_opened is, uint32_t result, pif_request request)
{
    pif_request of = is.request;

    expect_true(line, "the open call", is.result == result && of.call == request.call && of.mutex == request.mutex
                && of.cond == request.cond && of.thread == request.thread && of.prio == request.prio
                && of.deadline == request.deadline);
}

#define LIMITS(result, threads, mutexes, conds, signals) \
    expect_limits(__LINE__, pif_limits(core), result, threads, mutexes, conds, signals)
#define OPEN(thread, result, request) expect_call(__LINE__, pif_open_call(core, thread), result, request)

/* What stands still: counts, limits, base priorities, kinds, and the mutex of a variable. */
static void what_was_added(pif_core *core)
{
    NUMBER(pif_threads(core), PIF_OK, 2);
    NUMBER(pif_mutexes(core), PIF_OK, 2);
    NUMBER(pif_conds(core), PIF_OK, 1);
    LIMITS(PIF_OK, 8, 8, 8, 2);
    NUMBER(pif_base(core, 1), PIF_OK, 10);
    NUMBER(pif_base(core, 2), PIF_OK, 20);
    NUMBER(pif_mutex_kind(core, 1), PIF_OK, PIF_RECURSIVE);
    NUMBER(pif_mutex_kind(core, 2), PIF_OK, PIF_NORMAL);
    NUMBER(pif_robust(core, 1), PIF_OK, 1);
    NUMBER(pif_robust(core, 2), PIF_OK, 0);
    NUMBER(pif_bound(core, 1), PIF_OK, 1);
    NUMBER(pif_time(core), PIF_OK, 0);
    NUMBER(pif_ready(core, 0), PIF_OK, 2);
    NUMBER(pif_ready(core, 1), PIF_OK, 1);
    NUMBER(pif_ready(core, 2), PIF_NONE, 0);
}

static void what_was_never_added(pif_core *core)
{
    pif_request none = {0};

    OPEN(0, PIF_NONE, none);
    OPEN(1, PIF_NONE, none);
    OPEN(3, PIF_NONE, none);
    NUMBER(pif_base(core, 0), PIF_NONE, 0);
    NUMBER(pif_base(core, 3), PIF_NONE, 0);
    NUMBER(pif_mutex_kind(core, 0), PIF_NONE, 0);
    NUMBER(pif_mutex_kind(core, 3), PIF_NONE, 0);
    NUMBER(pif_robust(core, 0), PIF_NONE, 0);
    NUMBER(pif_robust(core, 3), PIF_NONE, 0);
    NUMBER(pif_bound(core, 0), PIF_NONE, 0);
    NUMBER(pif_bound(core, 2), PIF_NONE, 0);
    NUMBER(pif_waiter(core, 0, 0), PIF_NONE, 0);
    NUMBER(pif_waiter(core, 3, 0), PIF_NONE, 0);
    NUMBER(pif_parked(core, 0, 0), PIF_NONE, 0);
    NUMBER(pif_parked(core, 2, 0), PIF_NONE, 0);
    NUMBER(pif_effective(core, 3), PIF_NONE, 0);
    NUMBER(pif_effective(core, 0), PIF_NONE, 0);
    NUMBER(pif_waiting(core, 0), PIF_NONE, 0);
    NUMBER(pif_waiting(core, 1), PIF_NONE, 0);
    NUMBER(pif_word(core, 3), PIF_NONE, 0);
    NUMBER(pif_word(core, 0), PIF_NONE, 0);
    NUMBER(pif_health(core, 3), PIF_NONE, 0);
    NUMBER(pif_cond_word(core, 2), PIF_NONE, 0);
    OWNER(0, PIF_NONE, 0, 0);
    OWNER(1, PIF_NONE, 0, 0);
    OWNER(3, PIF_NONE, 0, 0);
    DOES(0, PIF_NONE, 0, 0);
    DOES(3, PIF_NONE, 0, 0);
    NUMBER(pif_pick(core), PIF_OK, 2);
}

static void waits(pif_core *core)
{
    DOES(1, PIF_OK, PIF_READY, 0);
    SEEN(pif_call(core, 1, pif_lock(1)), PIF_ANSWERED, PIF_DONE);
    SEEN(pif_call(core, 1, pif_trylock(1)), PIF_ANSWERED, PIF_DONE);
    DOES(1, PIF_OK, PIF_READY, 0);
    OWNER(1, PIF_OK, 1, 2);
    SEEN(pif_call(core, 1, pif_wait(1, 1)), PIF_ANSWERED, PIF_EINVAL);
    SEEN(pif_call(core, 1, pif_unlock(1)), PIF_ANSWERED, PIF_DONE);
    SEEN(pif_call(core, 1, pif_timedwait(1, 1, 5)), PIF_WAITS, 0);
    DOES(1, PIF_OK, PIF_PARKED, 1);
    OPEN(1, PIF_OK, pif_timedwait(1, 1, 5));
    SEEN(pif_begin(core, 2, pif_setprio(1, 10)), PIF_BEGUN, 0);
    OPEN(2, PIF_OK, pif_setprio(1, 10));
    SEEN(pif_finish(core, 2), PIF_ANSWERED, PIF_DONE);
    SEEN(pif_call(core, 2, pif_lock(1)), PIF_ANSWERED, PIF_DONE);
    SEEN(pif_call(core, 2, pif_signal(1)), PIF_ANSWERED, PIF_DONE);
    NUMBER(pif_cond_word(core, 1), PIF_OK, 1);
    DOES(1, PIF_OK, PIF_QUEUED, 1);
    SEEN(pif_call(core, 2, pif_broadcast(1)), PIF_ANSWERED, PIF_DONE);
    SEEN(pif_call(core, 2, pif_broadcast(1)), PIF_ANSWERED, PIF_EOVERFLOW);
    SEEN(pif_call(core, 2, pif_unlock(1)), PIF_ANSWERED, PIF_DONE);
    SEEN(pif_finish(core, 1), PIF_ANSWERED, PIF_DONE);
}

static void has_no_core(pif_core *core)
{
    pif_request none = {0};

    NUMBER(pif_threads(core), PIF_NO_CORE, 0);
    NUMBER(pif_mutexes(core), PIF_NO_CORE, 0);
    NUMBER(pif_conds(core), PIF_NO_CORE, 0);
    LIMITS(PIF_NO_CORE, 0, 0, 0, 0);
    OPEN(1, PIF_NO_CORE, none);
}

/* Three wait for a mutex: those of equal priority in order of arrival, behind the greatest. One is parked, and a tick
   sets the time. */
static void in_order(void)
{
    pif_core core = {0};

    TRUE(pif_core_new(&core, 5, 1, 1, 1) == PIF_OK);
    for (uint32_t thread = 1; thread <= 5; thread++)
        NUMBER(pif_add_thread(&core, thread == 4 ? 50 : 10), PIF_OK, thread);
    NUMBER(pif_add_mutex(&core, PIF_ERRORCHECK, false), PIF_OK, 1);
    NUMBER(pif_add_cond(&core, 1), PIF_OK, 1);
    NUMBER(pif_mutex_kind(&core, 1), PIF_OK, PIF_ERRORCHECK);
    SEEN(pif_call(&core, 5, pif_lock(1)), PIF_ANSWERED, PIF_DONE);
    SEEN(pif_call(&core, 5, pif_wait(1, 1)), PIF_WAITS, 0);
    NUMBER(pif_parked(&core, 1, 0), PIF_OK, 5);
    NUMBER(pif_parked(&core, 1, 1), PIF_NONE, 0);
    SEEN(pif_call(&core, 1, pif_lock(1)), PIF_ANSWERED, PIF_DONE);
    for (uint32_t thread = 2; thread <= 4; thread++)
        SEEN(pif_call(&core, thread, pif_lock(1)), PIF_WAITS, 0);
    NUMBER(pif_waiter(&core, 1, 0), PIF_OK, 4);
    NUMBER(pif_waiter(&core, 1, 1), PIF_OK, 2);
    NUMBER(pif_waiter(&core, 1, 2), PIF_OK, 3);
    NUMBER(pif_waiter(&core, 1, 3), PIF_NONE, 0);
    NUMBER(pif_effective(&core, 1), PIF_OK, 50);
    NUMBER(pif_base(&core, 1), PIF_OK, 10);
    NUMBER(pif_ready(&core, 0), PIF_OK, 1);
    NUMBER(pif_ready(&core, 1), PIF_NONE, 0);
    SEEN(pif_tick(&core, 7), PIF_TICKED, 0);
    NUMBER(pif_time(&core), PIF_OK, 7);
    SEEN(pif_tick(&core, 6), PIF_REFUSED, PIF_PAST);
    NUMBER(pif_time(&core), PIF_OK, 7);
    pif_core_free(&core);
    NUMBER(pif_time(&core), PIF_NO_CORE, 0);
    NUMBER(pif_base(&core, 1), PIF_NO_CORE, 0);
    NUMBER(pif_mutex_kind(&core, 1), PIF_NO_CORE, 0);
    NUMBER(pif_robust(&core, 1), PIF_NO_CORE, 0);
    NUMBER(pif_bound(&core, 1), PIF_NO_CORE, 0);
    NUMBER(pif_waiter(&core, 1, 0), PIF_NO_CORE, 0);
    NUMBER(pif_parked(&core, 1, 0), PIF_NO_CORE, 0);
    NUMBER(pif_ready(&core, 0), PIF_NO_CORE, 0);
    has_no_core(&core);
}

/* A robust mutex whose owner ended, and that the next owner gives up as it is: nobody can lock it again. */
static void is_given_up(pif_core *core)
{
    NUMBER(pif_add_mutex(core, PIF_NORMAL, true), PIF_OK, 3);
    NUMBER(pif_add_thread(core, 5), PIF_OK, 3);
    NUMBER(pif_add_thread(core, 6), PIF_OK, 4);
    SEEN(pif_call(core, 3, pif_lock(3)), PIF_ANSWERED, PIF_DONE);
    SEEN(pif_call(core, 4, pif_trylock(3)), PIF_ANSWERED, PIF_EBUSY);
    SEEN(pif_call(core, 4, pif_unlock(3)), PIF_ANSWERED, PIF_EPERM);
    SEEN(pif_end(core, 3), PIF_ENDED, 0);
    NUMBER(pif_word(core, 3), PIF_OK, PIF_OWNER_DIED);
    SEEN(pif_call(core, 4, pif_lock(3)), PIF_ANSWERED, PIF_EOWNERDEAD);
    SEEN(pif_call(core, 4, pif_unlock(3)), PIF_ANSWERED, PIF_DONE);
    NUMBER(pif_health(core, 3), PIF_OK, PIF_UNUSABLE);
    SEEN(pif_call(core, 4, pif_lock(3)), PIF_ANSWERED, PIF_ENOTRECOVERABLE);
    DOES(4, PIF_OK, PIF_READY, 0);
    SEEN(pif_end(core, 4), PIF_ENDED, 0);
}

static void ends(pif_core *core)
{
    SEEN(pif_call(core, 2, pif_setprio(2, 100)), PIF_ANSWERED, PIF_EINVAL);
    SEEN(pif_call(core, 2, pif_setprio(2, 30)), PIF_ANSWERED, PIF_DONE);
    NUMBER(pif_effective(core, 2), PIF_OK, 30);
    SEEN(pif_call(core, 2, pif_timedlock(1, 9)), PIF_WAITS, 0);
    DOES(2, PIF_OK, PIF_QUEUED, 1);
    NUMBER(pif_effective(core, 1), PIF_OK, 30);
    SEEN(pif_end(core, 1), PIF_ENDED, 0);
    DOES(1, PIF_OK, PIF_GONE, 0);
    NUMBER(pif_effective(core, 1), PIF_NONE, 0);
    SEEN(pif_finish(core, 2), PIF_ANSWERED, PIF_EOWNERDEAD);
    NUMBER(pif_health(core, 1), PIF_OK, PIF_INCONSISTENT);
    SEEN(pif_call(core, 2, pif_consistent(1)), PIF_ANSWERED, PIF_DONE);
    NUMBER(pif_health(core, 1), PIF_OK, PIF_FINE);
    SEEN(pif_call(core, 2, pif_lock(2)), PIF_ANSWERED, PIF_DONE);
    SEEN(pif_call(core, 2, pif_lock(2)), PIF_WAITS, 0);
    DOES(2, PIF_OK, PIF_STOPPED, 0);
    NUMBER(pif_pick(core), PIF_NONE, 0);
}

/* t3 waits for m2, which t2 holds, who waits for m1, which t1 holds. */
static void a_path(void)
{
    pif_core core = {0};

    TRUE(pif_core_new(&core, 3, 2, 0, 1) == PIF_OK);
    for (uint32_t thread = 1; thread <= 3; thread++)
        NUMBER(pif_add_thread(&core, 10), PIF_OK, thread);
    for (uint32_t mutex = 1; mutex <= 2; mutex++)
        NUMBER(pif_add_mutex(&core, PIF_NORMAL, false), PIF_OK, mutex);
    SEEN(pif_call(&core, 1, pif_lock(1)), PIF_ANSWERED, PIF_DONE);
    SEEN(pif_call(&core, 2, pif_lock(2)), PIF_ANSWERED, PIF_DONE);
    SEEN(pif_call(&core, 2, pif_lock(1)), PIF_WAITS, 0);
    SEEN(pif_call(&core, 3, pif_lock(2)), PIF_WAITS, 0);
    NUMBER(pif_path(&core, 3, 0), PIF_OK, 3);
    NUMBER(pif_path(&core, 3, 1), PIF_OK, 2);
    NUMBER(pif_path(&core, 3, 2), PIF_OK, 1);
    NUMBER(pif_path(&core, 3, 3), PIF_NONE, 0);
    NUMBER(pif_path(&core, 3, 4294967295), PIF_NONE, 0);
    NUMBER(pif_path(&core, 1, 0), PIF_OK, 1);
    NUMBER(pif_path(&core, 1, 1), PIF_NONE, 0);
    SEEN(pif_end(&core, 1), PIF_ENDED, 0);
    NUMBER(pif_path(&core, 2, 1), PIF_OK, 1);
    NUMBER(pif_path(&core, 1, 0), PIF_NONE, 0);
    NUMBER(pif_path(&core, 4, 0), PIF_NONE, 0);
    NUMBER(pif_path(&core, 0, 0), PIF_NONE, 0);
    pif_core_free(&core);
    NUMBER(pif_path(&core, 1, 0), PIF_NO_CORE, 0);
}

int main(void)
{
    pif_core core = {0};

    add_all(&core);
    what_was_added(&core);
    what_was_never_added(&core);
    waits(&core);
    is_given_up(&core);
    ends(&core);
    NUMBER(pif_base(&core, 2), PIF_OK, 30);
    NUMBER(pif_base(&core, 1), PIF_NONE, 0);
    pif_core_free(&core);
    in_order();
    a_path();
    return outcome();
}
