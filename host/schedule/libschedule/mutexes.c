/* The calls on mutexes, as the program makes them. */
#define _GNU_SOURCE
#include <errno.h>

#include "schedule.h"

/* An error that tells of a mistake of its caller. POSIX leaves it undefined of plain mutexes. */
static int judged(const Thread *me, uint32_t mutex, int answer, const char *does, const char *mistake)
{
    if (is_plain(mutex) || !options.errors)
        misuse(me, "%s m%u%s, %s", does, mutex, name_of_mutex(mutex), mistake);
    return answer;
}

/* Who gets a mutex comes after those who had it. */
static int taken(const Thread *me, const pthread_mutex_t *mutex, int answer)
{
    if (answer == 0 || answer == EOWNERDEAD)
        take_order(me, mutex);
    if (answer == EOWNERDEAD)
        take_order(me, &living);
    return answer;
}

static int judged_lock(const Thread *me, const pthread_mutex_t *mutex, uint32_t number, int answer)
{
    return answer == EDEADLK ? judged(me, number, answer, "locks", "which it holds") : taken(me, mutex, answer);
}

int pthread_mutex_init(pthread_mutex_t *mutex, const pthread_mutexattr_t *attributes)
{
    int shared = PTHREAD_PROCESS_PRIVATE;

    if (attributes != NULL)
        pthread_mutexattr_getpshared(attributes, &shared);
    if (shared == PTHREAD_PROCESS_SHARED && enter("pthread_mutex_init", CALLER) != NULL)
        stop(UNSUPPORTED, "a mutex that is shared between processes");
    return BELOW(pthread_mutex_init)(mutex, attributes);
}

int pthread_mutex_destroy(pthread_mutex_t *mutex)
{
    Thread *me = enter_if_on("pthread_mutex_destroy", CALLER);

    if (me != NULL) {
        forget_mutex(me, mutex);
        leave(me);
    }
    return BELOW(pthread_mutex_destroy)(mutex);
}

int pthread_mutex_lock(pthread_mutex_t *mutex)
{
    Thread *me = enter("pthread_mutex_lock", CALLER);

    if (me == NULL)
        return BELOW(pthread_mutex_lock)(mutex);
    point(me);
    uint32_t number = number_of_mutex(me, mutex);
    int answer = judged_lock(me, mutex, number, ask_for_lock(me, pif_lock(number)));
    leave(me);
    return answer;
}

int pthread_mutex_trylock(pthread_mutex_t *mutex)
{
    Thread *me = enter("pthread_mutex_trylock", CALLER);

    if (me == NULL)
        return BELOW(pthread_mutex_trylock)(mutex);
    point(me);
    int answer = taken(me, mutex, ask(me, pif_trylock(number_of_mutex(me, mutex))));
    if (answer == EBUSY)
        find_nothing(me);
    leave(me);
    return answer;
}

int pthread_mutex_clocklock(pthread_mutex_t *mutex, clockid_t clock, const struct timespec *deadline)
{
    Thread *me = enter("pthread_mutex_clocklock", CALLER);

    if (me == NULL)
        return BELOW(pthread_mutex_clocklock)(mutex, clock, deadline);
    if (!is_time(clock, deadline)) {
        leave(me);
        return EINVAL;
    }
    point(me);
    uint32_t number = number_of_mutex(me, mutex);
    set_deadline(me, clock, deadline);
    int answer = judged_lock(me, mutex, number, ask_for_lock(me, pif_timedlock(number, me->deadline)));
    leave(me);
    return answer;
}

int pthread_mutex_timedlock(pthread_mutex_t *mutex, const struct timespec *deadline)
{
    return pthread_mutex_clocklock(mutex, CLOCK_REALTIME, deadline);
}

int pthread_mutex_unlock(pthread_mutex_t *mutex)
{
    Thread *me = enter("pthread_mutex_unlock", CALLER);

    if (me == NULL)
        return BELOW(pthread_mutex_unlock)(mutex);
    point(me);
    uint32_t number = number_of_mutex(me, mutex);
    pass_order(me, mutex);
    int answer = ask(me, pif_unlock(number));
    if (answer == EPERM)
        judged(me, number, answer, "unlocks", "which it doesn't hold");
    leave(me);
    return answer;
}

int pthread_mutex_consistent(pthread_mutex_t *mutex)
{
    Thread *me = enter("pthread_mutex_consistent", CALLER);

    if (me == NULL)
        return BELOW(pthread_mutex_consistent)(mutex);
    point(me);
    uint32_t number = number_of_mutex(me, mutex);
    int answer = ask(me, pif_consistent(number));
    if (answer == EINVAL && !options.errors)
        misuse(me, "calls consistent of m%u%s, which it doesn't hold, or which isn't inconsistent", number,
               name_of_mutex(number));
    leave(me);
    return answer;
}

OLD_NAME("__pthread_mutex_init", pthread_mutex_init);
OLD_NAME("__pthread_mutex_destroy", pthread_mutex_destroy);
OLD_NAME("__pthread_mutex_lock", pthread_mutex_lock);
OLD_NAME("__pthread_mutex_trylock", pthread_mutex_trylock);
OLD_NAME("__pthread_mutex_unlock", pthread_mutex_unlock);
OLD_NAME("pthread_mutex_consistent_np", pthread_mutex_consistent);
