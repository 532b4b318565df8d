/* Notes each call of pthreads, and the threads, mutexes and variables that there are. A thread's end is noted by a
   key's destructor, and by the join. */
#include "noted.h"

#include <fcntl.h>
#include <signal.h>
#include <stdatomic.h>
#include <stdint.h>
#include <stdlib.h>
#include <unistd.h>

static unsigned microseconds(void);
static atomic_ulong places;

#define PIF_COUNTER() (atomic_fetch_add(&places, 1) + 1)
#define PIF_CLOCK() (microseconds() + 1)
#define PIF_RECORD_LINES (1u << 17)
#define PIF_RECORD_HERE
#include "pif_record.h"

enum { MOST = 512, STATUS_HUNG = 9, OTHER_PRIORITY = 1, BUFFER = 65536 };

typedef struct {
    void *(*body)(void *);
    void *value;
    unsigned number;
} Start;

static struct timespec start, real_start;
static pthread_once_t once = PTHREAD_ONCE_INIT;
static pthread_mutex_t guard = PTHREAD_MUTEX_INITIALIZER;
static pthread_key_t end_of_thread;
static pthread_t threads[MOST];
static bool is_over[MOST];
static pthread_mutex_t *mutexes[MOST];
static pthread_cond_t *variables[MOST];
static unsigned last_thread, last_mutex, last_variable;
static _Thread_local unsigned self;
static char buffer[BUFFER];
static size_t buffered;
static int file;
static bool is_written;

static int64_t nanoseconds(struct timespec time) { return time.tv_sec * INT64_C(1000000000) + time.tv_nsec; }

/* Whole ones since the start. */
static unsigned microseconds(void)
{
    struct timespec now;

    clock_gettime(CLOCK_MONOTONIC, &now);
    return (unsigned)((nanoseconds(now) - nanoseconds(start)) / 1000);
}

/* A time of CLOCK_REALTIME. It was read after the other clock at the start, so this is rounded down. */
static unsigned deadline_of(const struct timespec *time)
{
    int64_t behind = (nanoseconds(*time) - nanoseconds(real_start)) / 1000;

    return behind < 0 ? 0 : (unsigned)behind;
}

static void note_dying(void *number) { PIF_LINE("dying t%u", (unsigned)(uintptr_t)number); }

static unsigned priority_of(int policy, struct sched_param parameters)
{
    return policy == SCHED_FIFO || policy == SCHED_RR ? (unsigned)parameters.sched_priority : OTHER_PRIORITY;
}

static void note_first(void)
{
    struct sched_param parameters;
    int policy;

    clock_gettime(CLOCK_MONOTONIC, &start);
    clock_gettime(CLOCK_REALTIME, &real_start);
    pthread_key_create(&end_of_thread, note_dying);
    pthread_getschedparam(pthread_self(), &policy, &parameters);
    self = last_thread = 1;
    threads[1] = pthread_self();
    PIF_LINE("thread %u", priority_of(policy, parameters));
}

static void note_once(void) { pthread_once(&once, note_first); }

static const char *line_of(const pthread_mutexattr_t *attributes)
{
    int type = PTHREAD_MUTEX_NORMAL, robust = PTHREAD_MUTEX_STALLED;

    if (attributes != NULL) {
        pthread_mutexattr_gettype(attributes, &type);
        pthread_mutexattr_getrobust(attributes, &robust);
    }
    if (type == PTHREAD_MUTEX_RECURSIVE)
        return robust == PTHREAD_MUTEX_ROBUST ? "mutex recursive robust" : "mutex recursive";
    if (type == PTHREAD_MUTEX_ERRORCHECK)
        return robust == PTHREAD_MUTEX_ROBUST ? "mutex errorcheck robust" : "mutex errorcheck";
    return robust == PTHREAD_MUTEX_ROBUST ? "mutex normal robust" : "mutex normal";
}

int noted_mutex_init(pthread_mutex_t *mutex, const pthread_mutexattr_t *attributes)
{
    note_once();
    mutexes[++last_mutex] = mutex;
    PIF_LINE(line_of(attributes));
    return pthread_mutex_init(mutex, attributes);
}

int noted_cond_init(pthread_cond_t *variable, const pthread_condattr_t *attributes)
{
    note_once();
    variables[++last_variable] = variable;
    PIF_LINE("cond m%u", mutex_of(last_variable));
    return pthread_cond_init(variable, attributes);
}

static unsigned number_of_mutex(const pthread_mutex_t *mutex)
{
    unsigned number = last_mutex;

    while (number > 0 && mutexes[number] != mutex)
        number--;
    return number;
}

static unsigned number_of_variable(const pthread_cond_t *variable)
{
    unsigned number = last_variable;

    while (number > 0 && variables[number] != variable)
        number--;
    return number;
}

static int answered(int answer)
{
    PIF_ANSWER(self, answer);
    return answer;
}

int noted_lock(pthread_mutex_t *mutex)
{
    PIF_BEGIN(self, "lock m%u", number_of_mutex(mutex));
    return answered(pthread_mutex_lock(mutex));
}

int noted_trylock(pthread_mutex_t *mutex)
{
    PIF_BEGIN(self, "trylock m%u", number_of_mutex(mutex));
    return answered(pthread_mutex_trylock(mutex));
}

int noted_timedlock(pthread_mutex_t *mutex, const struct timespec *time)
{
    PIF_BEGIN(self, "timedlock m%u %u", number_of_mutex(mutex), deadline_of(time));
    return answered(pthread_mutex_timedlock(mutex, time));
}

int noted_unlock(pthread_mutex_t *mutex)
{
    PIF_BEGIN(self, "unlock m%u", number_of_mutex(mutex));
    return answered(pthread_mutex_unlock(mutex));
}

int noted_consistent(pthread_mutex_t *mutex)
{
    PIF_BEGIN(self, "consistent m%u", number_of_mutex(mutex));
    return answered(pthread_mutex_consistent(mutex));
}

int noted_wait(pthread_cond_t *variable, pthread_mutex_t *mutex)
{
    PIF_BEGIN(self, "wait c%u m%u", number_of_variable(variable), number_of_mutex(mutex));
    return answered(pthread_cond_wait(variable, mutex));
}

int noted_timedwait(pthread_cond_t *variable, pthread_mutex_t *mutex, const struct timespec *time)
{
    PIF_BEGIN(self, "timedwait c%u m%u %u", number_of_variable(variable), number_of_mutex(mutex), deadline_of(time));
    return answered(pthread_cond_timedwait(variable, mutex, time));
}

int noted_signal(pthread_cond_t *variable)
{
    PIF_BEGIN(self, "signal c%u", number_of_variable(variable));
    return answered(pthread_cond_signal(variable));
}

int noted_broadcast(pthread_cond_t *variable)
{
    PIF_BEGIN(self, "broadcast c%u", number_of_variable(variable));
    return answered(pthread_cond_broadcast(variable));
}

/* A thread sets its own alone. */
int noted_setschedprio(pthread_t thread, int priority)
{
    PIF_BEGIN(self, "setprio t%u %u", self, (unsigned)priority);
    return answered(pthread_setschedprio(thread, priority));
}

static void *run(void *value)
{
    Start here = *(Start *)value;

    free(value);
    self = here.number;
    pthread_setspecific(end_of_thread, (void *)(uintptr_t)self);
    return here.body(here.value);
}

static unsigned priority_in(const pthread_attr_t *attributes)
{
    struct sched_param parameters;
    int inherits, policy;

    if (attributes == NULL)
        return OTHER_PRIORITY;
    pthread_attr_getinheritsched(attributes, &inherits);
    pthread_attr_getschedpolicy(attributes, &policy);
    pthread_attr_getschedparam(attributes, &parameters);
    return inherits == PTHREAD_EXPLICIT_SCHED ? priority_of(policy, parameters) : OTHER_PRIORITY;
}

/* The lines of threads stand in the order of their numbers. */
int noted_create(pthread_t *thread, const pthread_attr_t *attributes, void *(*body)(void *), void *value)
{
    Start *here = malloc(sizeof *here);

    note_once();
    pthread_mutex_lock(&guard);
    *here = (Start){body, value, ++last_thread};
    PIF_LINE("thread %u", priority_in(attributes));
    int failed = pthread_create(thread, attributes, run, here);
    threads[last_thread] = *thread;
    is_over[last_thread] = failed != 0;
    pthread_mutex_unlock(&guard);
    return failed;
}

/* The number of a thread of this name; it may be used again, but only once the thread is over. */
static unsigned number_of_thread(pthread_t thread)
{
    unsigned number = last_thread;

    while (number > 0 && (is_over[number] || !pthread_equal(threads[number], thread)))
        number--;
    is_over[number] = true;
    return number;
}

int noted_join(pthread_t thread, void **value)
{
    unsigned number = number_of_thread(thread);
    int failed = pthread_join(thread, value);

    PIF_LINE("end t%u", number);
    return failed;
}

int noted_detach(pthread_t thread)
{
    number_of_thread(thread);
    return pthread_detach(thread);
}

static void flush(void)
{
    size_t done = 0;
    ssize_t length = 1;

    while (done < buffered && length > 0) {
        length = write(file, buffer + done, buffered - done);
        done += length > 0 ? (size_t)length : 0;
    }
    is_written = is_written && done == buffered;
    buffered = 0;
}

static void put(char character)
{
    buffer[buffered++] = character;
    if (buffered == BUFFER)
        flush();
}

bool write_noted(void)
{
    const char *name = getenv("RECORD_FILE");

    if (name == NULL)
        return true;
    file = open(name, O_CREAT | O_TRUNC | O_WRONLY, 0644);
    is_written = file >= 0 && pif_dump(put) == 0;
    if (file >= 0) {
        flush();
        close(file);
    }
    return is_written;
}

static void hung(int number)
{
    (void)number;
    write_noted();
    _exit(STATUS_HUNG);
}

static void died(int number)
{
    signal(number, SIG_DFL);
    write_noted();
    raise(number);
}

void write_when_hung(void)
{
    signal(SIGALRM, hung);
    signal(SIGTERM, hung);
    signal(SIGABRT, died);
    signal(SIGSEGV, died);
    signal(SIGBUS, died);
}
