/* Each function once as it should be, and each of its refusals; and the header's numbers, as this system has them. */
#define _POSIX_C_SOURCE 200809L
#include <errno.h>
#include <linux/futex.h>
#include <pthread.h>

#include "expect.h"

static void numbers_are_those_of_this_system(void)
{
    TRUE(PIF_EPERM == EPERM && PIF_ESRCH == ESRCH && PIF_EAGAIN == EAGAIN && PIF_EBUSY == EBUSY);
    TRUE(PIF_EINVAL == EINVAL && PIF_EDEADLK == EDEADLK && PIF_EOVERFLOW == EOVERFLOW);
    TRUE(PIF_ETIMEDOUT == ETIMEDOUT && PIF_EOWNERDEAD == EOWNERDEAD && PIF_ENOTRECOVERABLE == ENOTRECOVERABLE);
    TRUE((int)PIF_NORMAL == (int)PTHREAD_MUTEX_NORMAL);
    TRUE((int)PIF_RECURSIVE == (int)PTHREAD_MUTEX_RECURSIVE);
    TRUE((int)PIF_ERRORCHECK == (int)PTHREAD_MUTEX_ERRORCHECK);
    TRUE(PIF_WAITERS == FUTEX_WAITERS && PIF_OWNER_DIED == FUTEX_OWNER_DIED);
}

/* A handle with no core answers so, whatever is asked. */
static void nothing_is_answered(pif_core *core)
{
    NUMBER(pif_add_thread(core, 10), PIF_NO_CORE, 0);
    NUMBER(pif_add_mutex(core, PIF_NORMAL, true), PIF_NO_CORE, 0);
    NUMBER(pif_add_mutex(core, 9, true), PIF_NO_CORE, 0);
    NUMBER(pif_add_cond(core, 1), PIF_NO_CORE, 0);
    SEEN(pif_begin(core, 1, pif_lock(1)), PIF_NOTHING, 0);
    SEEN(pif_begin(core, 0, pif_lock(0)), PIF_NOTHING, 0);
    SEEN(pif_go(core, 1), PIF_NOTHING, 0);
    SEEN(pif_call(core, 1, pif_lock(1)), PIF_NOTHING, 0);
    SEEN(pif_finish(core, 1), PIF_NOTHING, 0);
    SEEN(pif_end(core, 1), PIF_NOTHING, 0);
    SEEN(pif_tick(core, 1), PIF_NOTHING, 0);
    NUMBER(pif_effective(core, 1), PIF_NO_CORE, 0);
    NUMBER(pif_waiting(core, 1), PIF_NO_CORE, 0);
    NUMBER(pif_word(core, 1), PIF_NO_CORE, 0);
    NUMBER(pif_health(core, 1), PIF_NO_CORE, 0);
    NUMBER(pif_cond_word(core, 1), PIF_NO_CORE, 0);
    NUMBER(pif_pick(core), PIF_NO_CORE, 0);
    TRUE(pif_owner(core, 1).result == PIF_NO_CORE);
    TRUE(pif_status(core, 1).result == PIF_NO_CORE);
}

static void limits_are_held(void)
{
    pif_core core = {0};

    TRUE(pif_core_new(&core, 0, 1, 1, 1) == PIF_INVALID);
    TRUE(pif_core_new(&core, 1025, 1, 1, 1) == PIF_INVALID);
    TRUE(pif_core_new(&core, 1, 1025, 1, 1) == PIF_INVALID);
    TRUE(pif_core_new(&core, 1, 1, 257, 1) == PIF_INVALID);
    TRUE(pif_core_new(&core, 1, 1, 1, 0) == PIF_INVALID);
    nothing_is_answered(&core);
    TRUE(pif_core_new(&core, 1, 1, 1, 1) == PIF_OK);
    TRUE(pif_core_new(&core, 1, 1, 1, 1) == PIF_FULL);
    TRUE(pif_core_new(&core, 0, 1, 1, 1) == PIF_FULL);
    NUMBER(pif_add_thread(&core, 0), PIF_BAD_PRIO, 0);
    NUMBER(pif_add_thread(&core, 100), PIF_BAD_PRIO, 0);
    NUMBER(pif_add_thread(&core, 99), PIF_OK, 1);
    NUMBER(pif_add_thread(&core, 1), PIF_TOO_MANY, 0);
    NUMBER(pif_add_cond(&core, 0), PIF_NO_MUTEX, 0);
    NUMBER(pif_add_cond(&core, 1), PIF_NO_MUTEX, 0);
    NUMBER(pif_add_mutex(&core, 3, false), PIF_INVALID, 0);
    NUMBER(pif_add_mutex(&core, PIF_RECURSIVE, true), PIF_OK, 1);
    NUMBER(pif_add_mutex(&core, PIF_NORMAL, false), PIF_TOO_MANY, 0);
    NUMBER(pif_add_cond(&core, 1), PIF_OK, 1);
    NUMBER(pif_add_cond(&core, 1), PIF_TOO_MANY, 0);
    pif_core_free(&core);
    nothing_is_answered(&core);
    pif_core_free(&core);
    nothing_is_answered(&core);
    TRUE(pif_core_new(&core, 8, 8, 8, 8) == PIF_OK);
    NUMBER(pif_add_thread(&core, 1), PIF_OK, 1);
    pif_core_free(&core);
}

/* A handle whose numbers name nothing, and calls that are none. */
static void nothing_is_named(pif_core *core)
{
    SEEN(pif_begin(core, 0, pif_lock(1)), PIF_UNNAMED, 0);
    SEEN(pif_begin(core, 1, pif_lock(0)), PIF_UNNAMED, 0);
    SEEN(pif_begin(core, 1, pif_wait(0, 1)), PIF_UNNAMED, 0);
    SEEN(pif_begin(core, 1, pif_wait(1, 0)), PIF_UNNAMED, 0);
    SEEN(pif_begin(core, 1, pif_signal(0)), PIF_UNNAMED, 0);
    SEEN(pif_begin(core, 1, pif_setprio(0, 5)), PIF_UNNAMED, 0);
    SEEN(pif_begin(core, 1, pif_request_of(0, 1, 1, 1)), PIF_UNNAMED, 0);
    SEEN(pif_begin(core, 1, pif_request_of(11, 1, 1, 1)), PIF_UNNAMED, 0);
    SEEN(pif_call(core, 0, pif_lock(1)), PIF_UNNAMED, 0);
    SEEN(pif_call(core, 1, pif_broadcast(0)), PIF_UNNAMED, 0);
    SEEN(pif_go(core, 0), PIF_UNNAMED, 0);
    SEEN(pif_finish(core, 0), PIF_UNNAMED, 0);
    SEEN(pif_end(core, 0), PIF_UNNAMED, 0);
}

static void events_are_refused(void)
{
    pif_core core = {0};

    TRUE(pif_core_new(&core, 4, 4, 4, 4) == PIF_OK);
    NUMBER(pif_add_thread(&core, 10), PIF_OK, 1);
    NUMBER(pif_add_mutex(&core, PIF_NORMAL, false), PIF_OK, 1);
    nothing_is_named(&core);
    SEEN(pif_begin(&core, 2, pif_lock(1)), PIF_REFUSED, PIF_NO_SUCH);
    SEEN(pif_begin(&core, 1, pif_lock(2)), PIF_REFUSED, PIF_NO_SUCH);
    SEEN(pif_call(&core, 1, pif_signal(1)), PIF_REFUSED, PIF_NO_SUCH);
    SEEN(pif_call(&core, 2, pif_lock(1)), PIF_REFUSED, PIF_NO_SUCH);
    SEEN(pif_go(&core, 2), PIF_REFUSED, PIF_NO_SUCH);
    SEEN(pif_finish(&core, 2), PIF_REFUSED, PIF_NO_SUCH);
    SEEN(pif_go(&core, 1), PIF_REFUSED, PIF_IDLE);
    SEEN(pif_finish(&core, 1), PIF_REFUSED, PIF_IDLE);
    SEEN(pif_begin(&core, 1, pif_lock(1)), PIF_BEGUN, 0);
    SEEN(pif_begin(&core, 1, pif_lock(1)), PIF_REFUSED, PIF_BUSY);
    SEEN(pif_call(&core, 1, pif_lock(1)), PIF_REFUSED, PIF_BUSY);
    SEEN(pif_go(&core, 1), PIF_WENT, 0);
    SEEN(pif_finish(&core, 1), PIF_ANSWERED, PIF_DONE);
    SEEN(pif_tick(&core, 7), PIF_TICKED, 0);
    SEEN(pif_tick(&core, 6), PIF_REFUSED, PIF_PAST);
    SEEN(pif_end(&core, 2), PIF_REFUSED, PIF_NO_SUCH);
    SEEN(pif_end(&core, 1), PIF_ENDED, 0);
    SEEN(pif_end(&core, 1), PIF_REFUSED, PIF_DEAD);
    SEEN(pif_begin(&core, 1, pif_lock(1)), PIF_REFUSED, PIF_DEAD);
    SEEN(pif_go(&core, 1), PIF_REFUSED, PIF_DEAD);
    SEEN(pif_call(&core, 1, pif_lock(1)), PIF_REFUSED, PIF_DEAD);
    SEEN(pif_finish(&core, 1), PIF_REFUSED, PIF_DEAD);
    pif_core_free(&core);
}

/* The holder runs at the priority of the one that waits: examples/holder_is_boosted_until_it_unlocks.pif. */
static void holder_is_boosted_until_it_unlocks(void)
{
    pif_core core = {0};

    TRUE(pif_core_new(&core, 8, 8, 8, 100) == PIF_OK);
    NUMBER(pif_add_thread(&core, 10), PIF_OK, 1);
    NUMBER(pif_add_thread(&core, 50), PIF_OK, 2);
    NUMBER(pif_add_mutex(&core, PIF_NORMAL, false), PIF_OK, 1);
    SEEN(pif_call(&core, 1, pif_lock(1)), PIF_ANSWERED, PIF_DONE);
    SEEN(pif_call(&core, 2, pif_lock(1)), PIF_WAITS, 0);
    SEEN(pif_go(&core, 2), PIF_WAITS, 0);
    SEEN(pif_finish(&core, 2), PIF_WAITS, 0);
    NUMBER(pif_word(&core, 1), PIF_OK, PIF_WAITERS | 1);
    NUMBER(pif_effective(&core, 1), PIF_OK, 50);
    NUMBER(pif_waiting(&core, 2), PIF_OK, 1);
    NUMBER(pif_pick(&core), PIF_OK, 1);
    SEEN(pif_call(&core, 1, pif_unlock(1)), PIF_ANSWERED, PIF_DONE);
    NUMBER(pif_word(&core, 1), PIF_OK, PIF_WAITERS | 2);
    NUMBER(pif_effective(&core, 1), PIF_OK, 10);
    NUMBER(pif_waiting(&core, 2), PIF_OK, 0);
    SEEN(pif_finish(&core, 2), PIF_ANSWERED, PIF_DONE);
    SEEN(pif_call(&core, 2, pif_unlock(1)), PIF_ANSWERED, PIF_DONE);
    NUMBER(pif_word(&core, 1), PIF_OK, 0);
    pif_core_free(&core);
}

int main(void)
{
    numbers_are_those_of_this_system();
    limits_are_held();
    events_are_refused();
    holder_is_boosted_until_it_unlocks();
    return outcome();
}
