/* The calls on condition variables, as the program makes them. */
#define _GNU_SOURCE
#include <errno.h>

#include "schedule.h"

enum { MONOTONIC_BIT = 2 };

/* What glibc keeps of the attributes. */
static clockid_t clock_of(const pthread_cond_t *variable)
{
    return (variable->__data.__wrefs & MONOTONIC_BIT) != 0 ? CLOCK_MONOTONIC : CLOCK_REALTIME;
}

int pthread_cond_init(pthread_cond_t *variable, const pthread_condattr_t *attributes)
{
    Thread *me = enter_if_on("pthread_cond_init", CALLER);

    if (me != NULL) {
        forget_variable(me, variable);
        leave(me);
    }
    return NEW_BELOW(pthread_cond_init)(variable, attributes);
}

/* glibc's would wait for threads that it believes to be inside. */
int pthread_cond_destroy(pthread_cond_t *variable)
{
    Thread *me = enter_if_on("pthread_cond_destroy", CALLER);

    if (me == NULL)
        return NEW_BELOW(pthread_cond_destroy)(variable);
    forget_variable(me, variable);
    leave(me);
    return 0;
}

/* The mutex that comes back may close a cycle. glibc's wait wouldn't return then. */
static int judged_wait(Thread *me, uint32_t mutex, int answer)
{
    if (answer == EDEADLK) {
        me->wants = mutex;
        tell_deadlock(me);
    }
    if (answer == EPERM && (is_plain(mutex) || !options.errors))
        misuse(me, "waits with m%u%s, which it doesn't hold", mutex, name_of_mutex(mutex));
    return answer;
}

static int wait_with(Thread *me, pthread_cond_t *variable, pthread_mutex_t *mutex, bool is_timed)
{
    uint32_t number = number_of_mutex(me, mutex);
    Variable *waited = variable_at(me, variable);

    bind_variable(me, waited, number);
    pass_order(me, mutex);
    waited->waiting++;
    int answer = ask(me, is_timed ? pif_timedwait(waited->number, number, me->deadline)
                                  : pif_wait(waited->number, number));
    waited->waiting--;
    take_order(me, mutex);
    return judged_wait(me, number, answer);
}

int pthread_cond_wait(pthread_cond_t *variable, pthread_mutex_t *mutex)
{
    Thread *me = enter("pthread_cond_wait", CALLER);

    if (me == NULL)
        return NEW_BELOW(pthread_cond_wait)(variable, mutex);
    point(me);
    int answer = wait_with(me, variable, mutex, false);
    leave(me);
    return answer;
}

static int timed_wait(Thread *me, pthread_cond_t *variable, pthread_mutex_t *mutex, clockid_t clock,
                      const struct timespec *deadline)
{
    int answer = EINVAL;

    if (is_time(clock, deadline)) {
        point(me);
        set_deadline(me, clock, deadline);
        answer = wait_with(me, variable, mutex, true);
    }
    leave(me);
    return answer;
}

int pthread_cond_timedwait(pthread_cond_t *variable, pthread_mutex_t *mutex, const struct timespec *deadline)
{
    Thread *me = enter("pthread_cond_timedwait", CALLER);

    if (me == NULL)
        return NEW_BELOW(pthread_cond_timedwait)(variable, mutex, deadline);
    return timed_wait(me, variable, mutex, clock_of(variable), deadline);
}

int pthread_cond_clockwait(pthread_cond_t *variable, pthread_mutex_t *mutex, clockid_t clock,
                           const struct timespec *deadline)
{
    Thread *me = enter("pthread_cond_clockwait", CALLER);

    if (me == NULL)
        return BELOW(pthread_cond_clockwait)(variable, mutex, clock, deadline);
    return timed_wait(me, variable, mutex, clock, deadline);
}

/* A variable on which nobody has waited is bound to no mutex: the core has none, and there is nothing to do. */
static int use(Thread *me, pthread_cond_t *variable, bool is_broadcast)
{
    point(me);
    Variable *used = variable_at(me, variable);
    int answer = 0;
    used->for_nobody += !is_waited_on(used);
    if (used->number != 0)
        answer = ask(me, is_broadcast ? pif_broadcast(used->number) : pif_signal(used->number));
    leave(me);
    return answer;
}

int pthread_cond_signal(pthread_cond_t *variable)
{
    Thread *me = enter("pthread_cond_signal", CALLER);

    return me == NULL ? NEW_BELOW(pthread_cond_signal)(variable) : use(me, variable, false);
}

int pthread_cond_broadcast(pthread_cond_t *variable)
{
    Thread *me = enter("pthread_cond_broadcast", CALLER);

    return me == NULL ? NEW_BELOW(pthread_cond_broadcast)(variable) : use(me, variable, true);
}
