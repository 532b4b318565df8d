/* The way `glibc`: each call is the pthread call of its name. */
#include <pthread.h>

#include "host.h"

bool make_glibc_mutex(Mutex *mutex)
{
    static const int types[] = {PTHREAD_MUTEX_NORMAL, PTHREAD_MUTEX_ERRORCHECK, PTHREAD_MUTEX_RECURSIVE};
    pthread_mutexattr_t attributes;

    if (pthread_mutexattr_init(&attributes) != 0)
        return false;
    bool done =
        pthread_mutexattr_settype(&attributes, types[mutex->kind]) == 0 &&
        pthread_mutexattr_setprotocol(&attributes, PTHREAD_PRIO_INHERIT) == 0 &&
        pthread_mutexattr_setrobust(&attributes, mutex->robust ? PTHREAD_MUTEX_ROBUST : PTHREAD_MUTEX_STALLED) == 0 &&
        pthread_mutex_init(&mutex->glibc, &attributes) == 0;
    pthread_mutexattr_destroy(&attributes);
    return done;
}

bool make_glibc_cond(Cond *cond) { return pthread_cond_init(&cond->glibc, NULL) == 0; }

int call_glibc(Worker *worker)
{
    Host *host = worker->host;
    const Request *request = &worker->request;
    pthread_mutex_t *mutex = request->mutex == 0 ? NULL : &mutex_of(host, request->mutex)->glibc;
    pthread_cond_t *cond = request->cond == 0 ? NULL : &cond_of(host, request->cond)->glibc;

    switch (request->wish) {
    case LOCK: return pthread_mutex_lock(mutex);
    case TRYLOCK: return pthread_mutex_trylock(mutex);
    case UNLOCK: return pthread_mutex_unlock(mutex);
    case CONSISTENT: return pthread_mutex_consistent(mutex);
    case WAIT: return pthread_cond_wait(cond, mutex);
    case SIGNAL: return pthread_cond_signal(cond);
    case BROADCAST: return pthread_cond_broadcast(cond);
    case SETPRIO: return pthread_setschedprio(worker_of(host, request->thread)->handle, (int)request->number);
    case TIMEDLOCK: return pthread_mutex_timedlock(mutex, &worker->until);
    case TIMEDWAIT: return pthread_cond_timedwait(cond, mutex, &worker->until);
    }
    return ENOSYS;
}
