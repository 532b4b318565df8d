/* The program's threads: their starts, ends and joins. Each is a thread of glibc, which runs only in its turn. */
#define _GNU_SOURCE
#include <errno.h>
#include <limits.h>
#include <sched.h>
#include <stdlib.h>
#include <string.h>

#include "schedule.h"

Thread threads[MOST_THREADS + 1];
uint32_t thread_count;
Threads living;
uint32_t stopped_count, ended_count;

static __thread Thread *self __attribute__((tls_model("initial-exec")));
static pthread_key_t key;

Thread *this_thread(void) { return self; }

static Thread *new_thread(int priority)
{
    if (thread_count == MOST_THREADS)
        stop(LIMIT, "more than %d threads", MOST_THREADS);
    pif_number added = add_thread((uint32_t)priority);
    if (added.result != PIF_OK)
        stop(UNSUPPORTED, "a thread of priority %d", priority);
    Thread *thread = &threads[++thread_count];
    thread->number = added.number;
    thread->priority = priority;
    rank_new(thread);
    living.at[living.count++] = thread;
    tell_event("thread %d = t%u", priority, added.number);
    return thread;
}

/* Its robust mutexes pass on. */
static void leave_the_living(Thread *thread)
{
    uint32_t at = 0;

    while (living.at[at] != thread)
        at++;
    living.count--;
    memmove(&living.at[at], &living.at[at + 1], (living.count - at) * sizeof *living.at);
    pass_order(thread, thread);
    pass_order(thread, &living);
    thread->gone = true;
    thread->call = "its end";
    ended_count++;
    end_of_thread(thread);
}

void stop_thread(Thread *thread)
{
    stopped_count++;
    thread->stopped = true;
    leave_the_living(thread);
}

/* Other keys' destructors may still make calls, up to the last round. */
static void round_of_destructors(void *value)
{
    Thread *me = value;

    if (!is_on())
        return;
    if (++me->rounds < PTHREAD_DESTRUCTOR_ITERATIONS) {
        pthread_setspecific(key, me);
        return;
    }
    leave_the_living(me);
    if (living.count > 0)
        last_turn(me);
    else if (stopped_count > 0) /* glibc would wait for those */
        exit(0);
}

static void take_name(Thread *me)
{
    self = me;
    me->name = pthread_self();
    pthread_setspecific(key, me);
}

/* The thread that is here is the first one. */
bool begin_threads(void)
{
    if (pthread_key_create(&key, round_of_destructors) != 0)
        return false;
    running = new_thread(LEAST_PRIORITY);
    take_name(running);
    begin_handlers(running);
    return true;
}

/* STARTS */

static void *run_thread(void *value)
{
    Thread *me = value;

    first_turn(me);
    take_name(me);
    take_order(me, me);
    forget_stack(me);
    return me->start(me->argument);
}

/* The attributes without their priority, to which the program may have no right. */
static pthread_attr_t *without_priority(const pthread_attr_t *given, pthread_attr_t *room)
{
    if (given == NULL)
        return NULL;
    *room = *given;
    pthread_attr_setinheritsched(room, PTHREAD_INHERIT_SCHED);
    return room;
}

static bool starts_detached(const pthread_attr_t *attributes)
{
    int state = PTHREAD_CREATE_JOINABLE;

    if (attributes != NULL)
        pthread_attr_getdetachstate(attributes, &state);
    return state == PTHREAD_CREATE_DETACHED;
}

/* The new thread is there before the first point behind the call. */
int pthread_create(pthread_t *name, const pthread_attr_t *attributes, void *(*start)(void *), void *argument)
{
    pthread_attr_t room;
    Thread *me = enter("pthread_create", CALLER);

    if (me == NULL)
        return BELOW(pthread_create)(name, attributes, start, argument);
    Thread *added = new_thread(priority_by(attributes, me->priority));
    added->start = start;
    added->argument = argument;
    added->detached = starts_detached(attributes);
    added->blocked = me->blocked;
    pass_order(me, added);
    int answer = BELOW(pthread_create)(&added->name, without_priority(attributes, &room), run_thread, added);
    if (answer == 0)
        *name = added->name;
    else
        leave_the_living(added);
    point(me);
    leave(me);
    return answer;
}

/* ENDS AND JOINS */

/* glibc gives a name again once its thread is joined, or has ended detached: the last one is meant. */
Thread *thread_named(pthread_t name)
{
    for (uint32_t number = thread_count; number >= 1; number--)
        if (pthread_equal(threads[number].name, name) && !threads[number].joined)
            return &threads[number];
    return NULL;
}

static bool has_ended(const Thread *thread) { return ((const Thread *)thread->waits_for)->gone; }

/* NULL: the join is over before anything is waited for. */
static Thread *thread_to_join(Thread *me, pthread_t name)
{
    Thread *thread = thread_named(name);

    if (thread == NULL)
        misuse(me, "joins a thread that isn't there");
    if (thread->detached)
        misuse(me, "joins t%u, which is detached", thread->number);
    if (thread == me)
        misuse(me, "joins itself");
    return thread;
}

/* A thread that stopped for good stands still in glibc. */
static int take_result(const Thread *me, Thread *thread, void **result)
{
    take_order(me, thread);
    thread->joined = true;
    if (!thread->stopped)
        return BELOW(pthread_join)(thread->name, result);
    if (result != NULL)
        *result = PTHREAD_CANCELED;
    return 0;
}

int pthread_join(pthread_t name, void **result)
{
    Thread *me = enter("pthread_join", CALLER);

    if (me == NULL)
        return BELOW(pthread_join)(name, result);
    point(me);
    Thread *thread = thread_to_join(me, name);
    wait_until(me, has_ended, thread, "waits for the end of");
    int answer = take_result(me, thread, result);
    leave(me);
    return answer;
}

int pthread_tryjoin_np(pthread_t name, void **result)
{
    Thread *me = enter("pthread_tryjoin_np", CALLER);

    if (me == NULL)
        return BELOW(pthread_tryjoin_np)(name, result);
    point(me);
    Thread *thread = thread_to_join(me, name);
    if (!thread->gone)
        find_nothing(me);
    int answer = thread->gone ? take_result(me, thread, result) : EBUSY;
    leave(me);
    return answer;
}

static bool has_ended_or_is_due(const Thread *thread) { return has_ended(thread) || is_due(thread); }

int pthread_clockjoin_np(pthread_t name, void **result, clockid_t clock, const struct timespec *deadline)
{
    Thread *me = enter("pthread_clockjoin_np", CALLER);

    if (me == NULL)
        return BELOW(pthread_clockjoin_np)(name, result, clock, deadline);
    if (!is_time(clock, deadline)) {
        leave(me);
        return EINVAL;
    }
    point(me);
    Thread *thread = thread_to_join(me, name);
    set_deadline(me, clock, deadline);
    wait_until(me, has_ended_or_is_due, thread, "waits for the end of");
    int answer = thread->gone ? take_result(me, thread, result) : ETIMEDOUT;
    leave(me);
    return answer;
}

int pthread_timedjoin_np(pthread_t name, void **result, const struct timespec *deadline)
{
    return pthread_clockjoin_np(name, result, CLOCK_REALTIME, deadline);
}

int pthread_detach(pthread_t name)
{
    Thread *me = enter("pthread_detach", CALLER);

    if (me == NULL)
        return BELOW(pthread_detach)(name);
    Thread *thread = thread_named(name);
    if (thread == NULL)
        misuse(me, "detaches a thread that isn't there");
    if (thread->detached)
        misuse(me, "detaches t%u a second time", thread->number);
    thread->detached = true;
    int answer = thread->stopped ? 0 : BELOW(pthread_detach)(name);
    leave(me);
    return answer;
}

/* PRIORITIES: those of the core or the machine alone. */

static int set_priority(Thread *me, pthread_t name, int priority)
{
    Thread *thread = thread_named(name);

    if (thread == NULL)
        return ESRCH;
    int answer = ask(me, pif_setprio(thread->number, (uint32_t)priority));
    if (answer == 0)
        thread->priority = priority;
    return answer;
}

int pthread_setschedprio(pthread_t name, int priority)
{
    Thread *me = enter("pthread_setschedprio", CALLER);

    if (me == NULL)
        return BELOW(pthread_setschedprio)(name, priority);
    point(me);
    int answer = set_priority(me, name, priority);
    leave(me);
    return answer;
}

/* Threads that aren't of real time are of the least priority. */
int pthread_setschedparam(pthread_t name, int policy, const struct sched_param *parameters)
{
    Thread *me = enter("pthread_setschedparam", CALLER);

    if (me == NULL)
        return BELOW(pthread_setschedparam)(name, policy, parameters);
    point(me);
    int answer = set_priority(me, name, is_real_time(policy) ? parameters->sched_priority : LEAST_PRIORITY);
    leave(me);
    return answer;
}
