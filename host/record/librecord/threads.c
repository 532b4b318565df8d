/* Who is who: threads of the program, from before anybody can name them to behind their join. */
#define _GNU_SOURCE
#include <errno.h>
#include <limits.h>
#include <sched.h>
#include <sys/prctl.h>
#include <unistd.h>

#include "record.h"

static __thread _Atomic(Thread *) self __attribute__((tls_model("initial-exec")));
static pthread_key_t key;

/* Threads that aren't of real time are all of one priority. */
static int present_priority(void)
{
    struct sched_param parameters;

    if (!is_real_time(sched_getscheduler(0)) || sched_getparam(0, &parameters) != 0)
        return LEAST_PRIORITY;
    return parameters.sched_priority;
}

static Thread *new_thread(int priority)
{
    Thread *thread = take_of_run(sizeof *thread); /* which may make the run */
    Process *process = the_process();

    if (thread == NULL) {
        stop_recording();
        return NULL;
    }
    atomic_store(&thread->priority, priority);
    thread->process = process;
    thread->room = most_records;
    thread->next = atomic_load(&run->threads);
    while (!atomic_compare_exchange_weak(&run->threads, &thread->next, thread))
        ;
    return thread;
}

/* What befalls a thread, seen by this one. */
bool note_thread(Thread *maker, What what, Thread *thread)
{
    Record own = {.thread = maker, .what = (uint8_t)what};
    Record *record = is_parted_run() ? &own : new_record(maker, what);

    if (record == NULL)
        return false;
    record->named = thread;
    stamp_begin(record);
    return true;
}

/* The thread's own first steps. It is the only one that has this pthread_t now. Its priority is what it finds, unless
   somebody has changed that by a call of the history. */
static void take_name(Thread *thread)
{
    atomic_store(&self, thread);
    if (!atomic_load(&thread->is_set))
        atomic_store(&thread->priority, present_priority());
    atomic_store(&thread->started, true);
    thread->number_of_kernel = gettid();
    hold_object(&threads, (uintptr_t)pthread_self(), thread);
    pthread_setspecific(key, thread);
}

/* A thread that pthread_create didn't start, as the first one. A signal's handler may have found it out meanwhile. */
static Thread *add_itself(Thread *thread)
{
    Thread *present = NULL;

    note_thread(thread, THREAD_ADDED, thread);
    if (!atomic_compare_exchange_strong(&self, &present, thread)) {
        atomic_store(&thread->never_started, true);
        return present;
    }
    take_name(thread);
    return thread;
}

static Thread *find_out_who(void)
{
    int number = errno;
    Thread *thread = new_thread(LEAST_PRIORITY);

    if (thread != NULL)
        thread = add_itself(thread);
    errno = number;
    return thread;
}

Thread *this_thread(void)
{
    Thread *present = atomic_load_explicit(&self, memory_order_relaxed);

    return present != NULL ? present : find_out_who();
}

/* A thread has a line by its THREAD_ADDED alone. */
Thread *this_or_no_thread(void)
{
    Thread *present = atomic_load(&self);
    int number = errno;

    if (present == NULL)
        present = new_thread(LEAST_PRIORITY);
    errno = number;
    return present;
}

/* Other keys' destructors may still make calls, up to the last round; a call behind this stamp moves it. */
static void round_of_destructors(void *value)
{
    Thread *thread = value;

    if (!atomic_load(&recording))
        return;
    if (atomic_load(&thread->in_call)) { /* no answer comes */
        atomic_store(&thread->cancelled, true);
        atomic_store(&thread->in_call, false);
    }
    note_name(thread);
    if (atomic_fetch_add(&thread->rounds, 1) + 1 < PTHREAD_DESTRUCTOR_ITERATIONS)
        pthread_setspecific(key, thread);
    else
        note_thread(thread, THREAD_DYING, thread);
}

/* The parent's is none of the child's. */
void forget_thread(void)
{
    atomic_store(&self, NULL);
    pthread_setspecific(key, NULL);
}

/* What was found is of this process, and no copy that a child has of its parent's. */
static Thread *thread_at(pthread_t name)
{
    Thread *found = held_at(&threads, (uintptr_t)name);

    return found != NULL && found->process == present_process() ? found : NULL;
}

bool make_key(void) { return pthread_key_create(&key, round_of_destructors) == 0; }

static void *run_thread(void *value)
{
    Thread *thread = value;

    take_name(thread);
    return thread->start(thread->argument);
}

static Thread *add_thread(const pthread_attr_t *attributes, void *(*start)(void *), void *argument)
{
    if (!atomic_load(&recording))
        return NULL;
    Thread *maker = this_thread();
    Thread *added = maker == NULL ? NULL : new_thread(priority_by(attributes, present_priority()));
    if (added == NULL)
        return NULL;
    added->start = start;
    added->argument = argument;
    prctl(PR_GET_NAME, added->inherited);
    return note_thread(maker, THREAD_ADDED, added) ? added : NULL;
}

/* For those that name the thread before it runs. Where it runs already it has done so, and may have ended since. */
static void name_thread(Thread *thread, pthread_t name)
{
    void *present = held_at(&threads, (uintptr_t)name);

    if (!atomic_load(&thread->started))
        replace_object(&threads, (uintptr_t)name, present, thread);
}

int pthread_create(pthread_t *name, const pthread_attr_t *attributes, void *(*start)(void *), void *argument)
{
    be_ready();
    Thread *added = add_thread(attributes, start, argument);
    if (added == NULL)
        return real.create(name, attributes, start, argument);
    int answer = real.create(name, attributes, run_thread, added);
    if (answer == 0)
        name_thread(added, *name);
    else
        atomic_store(&added->never_started, true);
    return answer;
}

/* The name may be another thread's as soon as the join is over. */
int pthread_join(pthread_t name, void **result)
{
    be_ready();
    Thread *ended = thread_at(name);
    int answer = real.join(name, result);
    if (answer != 0 || ended == NULL || !atomic_load(&recording))
        return answer;
    atomic_store(&ended->joined, true);
    replace_object(&threads, (uintptr_t)name, ended, NULL);
    Thread *joiner = this_thread();
    if (joiner != NULL)
        note_thread(joiner, THREAD_ENDED, ended);
    return answer;
}

void pthread_exit(void *result)
{
    be_ready();
    Thread *thread = atomic_load(&self);
    if (thread != NULL && atomic_load(&thread->in_call)) { /* by a signal's handler */
        atomic_store(&thread->cancelled, true);
        atomic_store(&thread->in_call, false);
    }
    real.exit(result);
}

/* The thread that is named, for a call that can be recorded; else NULL. */
static Thread *named_thread(pthread_t name, bool is_of_real_time)
{
    if (!atomic_load(&recording))
        return NULL;
    Thread *named = pthread_equal(name, pthread_self()) ? this_thread() : thread_at(name);
    if (named == NULL)
        count(UNKNOWN_THREADS);
    else if (!is_of_real_time)
        count(FOREIGN_PRIORITIES);
    return is_of_real_time ? named : NULL;
}

/* Of a thread that isn't of real time the only priority is 0, and it is the least one in the history. An ended thread
   has none, so that such a call is recorded as it stands. */
int pthread_setschedprio(pthread_t name, int priority)
{
    struct sched_param parameters;
    int policy = SCHED_FIFO, recorded = priority;

    be_ready();
    if (atomic_load(&recording) && pthread_getschedparam(name, &policy, &parameters) != 0)
        policy = SCHED_FIFO;
    if (!is_real_time(policy) && priority == 0)
        recorded = LEAST_PRIORITY;
    Thread *named = named_thread(name, (is_real_time(policy) && priority >= 0) || priority == 0);
    Record *call = named == NULL ? NULL : begin_setprio(named, recorded, CALLER);
    int answer = real.setschedprio(name, priority);
    answer_call(call, answer);
    return answer;
}

int pthread_setschedparam(pthread_t name, int policy, const struct sched_param *parameters)
{
    int priority = parameters->sched_priority;
    bool is_least = plain_policy(policy) == SCHED_OTHER && priority == 0;

    be_ready();
    Thread *named = named_thread(name, is_least || (is_real_time(policy) && priority >= 0));
    Record *call = named == NULL ? NULL : begin_setprio(named, is_least ? LEAST_PRIORITY : priority, CALLER);
    int answer = real.setschedparam(name, policy, parameters);
    answer_call(call, answer);
    return answer;
}
