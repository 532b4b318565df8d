/* What runs once: pthread_once, and the static objects of C++. Both are of the form that glibc and libstdc++ have, so
   that what began before the run is on ends right. */
#define _GNU_SOURCE
#include <threads.h>

#include "schedule.h"

enum { NOT_BEGUN = 0, BEGUN = 1, DONE = 2 };         /* of pthread_once_t */
enum { MADE = 1, IS_BEING_MADE = 256, MADE_BITS = 255 }; /* of a guard of C++ */

static bool is_done(const Thread *thread) { return *(const volatile int *)thread->waits_for != BEGUN; }

/* A body of C++ may throw: then the next caller runs it. */
static void forget_unfinished(volatile int **once)
{
    if (**once == BEGUN)
        **once = NOT_BEGUN;
}

static void run(volatile int *once, void (*body)(void))
{
    __attribute__((cleanup(forget_unfinished))) volatile int *begun = once;

    *begun = BEGUN;
    body();
    *begun = DONE;
}

/* The body makes calls of its own. One that stops for good in it leaves it begun. */
static void run_body(Thread *me, volatile int *once, void (*body)(void))
{
    while (*once == BEGUN)
        wait_until(me, is_done, (const void *)once, "waits for what runs once");
    leave(me);
    if (*once == NOT_BEGUN) {
        run(once, body);
        pass_order(me, once);
    }
    take_order(me, once);
}

int pthread_once(pthread_once_t *once, void (*body)(void))
{
    Thread *me = enter_if_on("pthread_once", CALLER);

    if (me == NULL)
        return BELOW(pthread_once)(once, body);
    point(me);
    run_body(me, once, body);
    return 0;
}

void call_once(once_flag *once, void (*body)(void))
{
    Thread *me = enter_if_on("call_once", CALLER);

    if (me == NULL) {
        BELOW(call_once)(once, body);
        return;
    }
    point(me);
    run_body(me, (volatile int *)once, body);
}

OLD_NAME("__pthread_once", pthread_once);

static bool is_not_being_made(const Thread *thread)
{
    return (*(const volatile int *)thread->waits_for & IS_BEING_MADE) == 0;
}

/* Whether the caller has to make the static object. */
int __cxa_guard_acquire(int *guard);
int __cxa_guard_acquire(int *guard)
{
    Thread *me = enter_if_on("the making of a static object", CALLER);

    if (me == NULL)
        return BELOW(__cxa_guard_acquire)(guard);
    point(me);
    wait_until(me, is_not_being_made, guard, "waits for a static object");
    bool makes = (*guard & MADE_BITS) == 0;
    if (makes)
        *guard |= IS_BEING_MADE;
    take_order(me, guard);
    leave(me);
    return makes;
}

static void end_making(int *guard, int state)
{
    const Thread *me = this_thread();

    if (me != NULL)
        pass_order(me, guard);
    *(volatile int *)guard = state;
}

void __cxa_guard_release(int *guard);
void __cxa_guard_release(int *guard)
{
    if (is_on())
        end_making(guard, MADE);
    else
        BELOW(__cxa_guard_release)(guard);
}

void __cxa_guard_abort(int *guard);
void __cxa_guard_abort(int *guard)
{
    if (is_on())
        end_making(guard, 0);
    else
        BELOW(__cxa_guard_abort)(guard);
}
