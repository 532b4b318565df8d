/* The calls on condition variables, as the program makes them. */
#define _GNU_SOURCE
#include "record.h"

/* Waits with a mutex that isn't recorded: no signal of this variable matters, up to a wait with one that is. */
static void forget_variable(pthread_cond_t *variable, uintptr_t caller)
{
    Object *present = held_at(&variables, (uintptr_t)variable);

    bool is_left_out = present != NULL && atomic_load(&present->left_out) != KEPT;
    if (!atomic_load(&recording) || is_shared_variable(variable) || is_left_out)
        return;
    Object *other = new_object(OF_OTHERS, (uintptr_t)variable, caller);
    if (other == NULL)
        return;
    if (present != NULL)
        other->clock = present->clock;
    hold_object(&variables, (uintptr_t)variable, other);
}

static Object *variable_of_wait(pthread_cond_t *variable, uintptr_t caller)
{
    Object *present = recorded_variable(variable, caller);

    if (present == NULL || atomic_load(&present->left_out) != OF_OTHERS)
        return present;
    Object *added = new_object(KEPT, (uintptr_t)variable, caller);
    if (added == NULL)
        return NULL;
    added->clock = present->clock;
    replace_object(&variables, (uintptr_t)variable, present, added);
    return held_at(&variables, (uintptr_t)variable);
}

/* The variable of a wait that is recorded, and its mutex; or NULL. */
static Object *objects_of_wait(pthread_cond_t *variable, pthread_mutex_t *mutex, Object **with, uintptr_t caller)
{
    be_ready();
    *with = recorded_mutex(mutex, caller);
    if (*with == NULL) {
        forget_variable(variable, caller);
        return NULL;
    }
    Object *present = variable_of_wait(variable, caller);
    if (present == NULL || atomic_load(&present->left_out) == KEPT)
        return present;
    leave_out(*with, WITH_LEFT_OUT);
    pass_by_left_out(atomic_load(&present->left_out));
    return NULL;
}

int pthread_cond_wait(pthread_cond_t *variable, pthread_mutex_t *mutex)
{
    Object *with, *waited = objects_of_wait(variable, mutex, &with, CALLER);
    Record *call = begin_call(CALL_WAIT, waited, with, CALLER);
    int answer;

    pthread_cleanup_push(leave_call, call);
    answer = real.wait(variable, mutex);
    pthread_cleanup_pop(0);
    answer_call(call, answer);
    return answer;
}

int pthread_cond_timedwait(pthread_cond_t *variable, pthread_mutex_t *mutex, const struct timespec *deadline)
{
    Object *with, *waited = objects_of_wait(variable, mutex, &with, CALLER);
    clockid_t clock = waited == NULL ? CLOCK_REALTIME : waited->clock;
    Record *call = begin_timed(CALL_TIMEDWAIT, waited, with, clock, deadline, CALLER);
    int answer;

    pthread_cleanup_push(leave_call, call);
    answer = real.timedwait(variable, mutex, deadline);
    pthread_cleanup_pop(0);
    answer_call(call, answer);
    return answer;
}

int pthread_cond_clockwait(pthread_cond_t *variable, pthread_mutex_t *mutex, clockid_t clock,
                           const struct timespec *deadline)
{
    Object *with, *waited = objects_of_wait(variable, mutex, &with, CALLER);
    Record *call = begin_timed(CALL_TIMEDWAIT, waited, with, clock, deadline, CALLER);
    int answer;

    pthread_cleanup_push(leave_call, call);
    answer = real.clockwait(variable, mutex, clock, deadline);
    pthread_cleanup_pop(0);
    answer_call(call, answer);
    return answer;
}

static Record *begin_use(What what, pthread_cond_t *variable, uintptr_t caller)
{
    be_ready();
    Object *used = recorded_variable(variable, caller);
    Reason reason = used == NULL ? KEPT : atomic_load_explicit(&used->left_out, memory_order_relaxed);
    if (reason == KEPT)
        return begin_call(what, used, NULL, caller);
    pass_by_left_out(reason);
    return NULL;
}

int pthread_cond_signal(pthread_cond_t *variable)
{
    Record *call = begin_use(CALL_SIGNAL, variable, CALLER);
    int answer = real.signal(variable);

    answer_call(call, answer);
    return answer;
}

int pthread_cond_broadcast(pthread_cond_t *variable)
{
    Record *call = begin_use(CALL_BROADCAST, variable, CALLER);
    int answer = real.broadcast(variable);

    answer_call(call, answer);
    return answer;
}
