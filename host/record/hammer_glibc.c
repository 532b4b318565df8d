/* The hammer's calls of glibc. */
#include <time.h>

#include "hammer.h"

void make_mutex(Mutex *mutex, int type, bool is_robust)
{
    pthread_mutexattr_t attributes;

    mutex->type = type;
    mutex->is_robust = is_robust;
    pthread_mutexattr_init(&attributes);
    pthread_mutexattr_settype(&attributes, type);
    pthread_mutexattr_setrobust(&attributes, is_robust ? PTHREAD_MUTEX_ROBUST : PTHREAD_MUTEX_STALLED);
    pthread_mutexattr_setprotocol(&attributes, orders.plain ? PTHREAD_PRIO_NONE : PTHREAD_PRIO_INHERIT);
    pthread_mutex_init(&mutex->mutex, &attributes);
    pthread_mutexattr_destroy(&attributes);
}

static struct timespec behind(unsigned microseconds)
{
    struct timespec time;

    clock_gettime(CLOCK_REALTIME, &time);
    time.tv_nsec += 1000L * microseconds;
    if (time.tv_nsec >= 1000000000) {
        time.tv_sec++;
        time.tv_nsec -= 1000000000;
    }
    return time;
}

static int lock(unsigned mutex) { return pthread_mutex_lock(&mutexes[mutex].mutex); }

static int trylock(unsigned mutex) { return pthread_mutex_trylock(&mutexes[mutex].mutex); }

static int timedlock(unsigned mutex, unsigned time)
{
    struct timespec deadline = behind(time);

    return pthread_mutex_timedlock(&mutexes[mutex].mutex, &deadline);
}

static int unlock(unsigned mutex) { return pthread_mutex_unlock(&mutexes[mutex].mutex); }

static int wait_on(unsigned variable, unsigned mutex)
{
    return pthread_cond_wait(&variables[variable], &mutexes[mutex].mutex);
}

static int timedwait(unsigned variable, unsigned mutex, unsigned time)
{
    struct timespec deadline = behind(time);

    return pthread_cond_timedwait(&variables[variable], &mutexes[mutex].mutex, &deadline);
}

static int signal_one(unsigned variable) { return pthread_cond_signal(&variables[variable]); }

static int broadcast(unsigned variable) { return pthread_cond_broadcast(&variables[variable]); }

const Calls glibc_calls = {
    lock, trylock, timedlock, unlock, wait_on, timedwait, signal_one, broadcast,
};
