/* Calls that no history has. They are counted, and go on to the library below. */
#define _GNU_SOURCE
#include <dlfcn.h>
#include <sched.h>
#include <semaphore.h>
#include <threads.h>

#include "record.h"

/* Each with what it is counted as, its name, and the parameters and arguments of a call. All answer an int. */
#define COUNTED_CALLS(CALL) \
    CALL(OF_RWLOCKS, pthread_rwlock_rdlock, (pthread_rwlock_t * lock), (lock)) \
    CALL(OF_RWLOCKS, pthread_rwlock_wrlock, (pthread_rwlock_t * lock), (lock)) \
    CALL(OF_RWLOCKS, pthread_rwlock_tryrdlock, (pthread_rwlock_t * lock), (lock)) \
    CALL(OF_RWLOCKS, pthread_rwlock_trywrlock, (pthread_rwlock_t * lock), (lock)) \
    CALL(OF_RWLOCKS, pthread_rwlock_unlock, (pthread_rwlock_t * lock), (lock)) \
    CALL(OF_RWLOCKS, pthread_rwlock_timedrdlock, (pthread_rwlock_t * lock, Time *end), (lock, end)) \
    CALL(OF_RWLOCKS, pthread_rwlock_timedwrlock, (pthread_rwlock_t * lock, Time *end), (lock, end)) \
    CALL(OF_RWLOCKS, pthread_rwlock_clockrdlock, (pthread_rwlock_t * lock, clockid_t clock, Time *end), \
         (lock, clock, end)) \
    CALL(OF_RWLOCKS, pthread_rwlock_clockwrlock, (pthread_rwlock_t * lock, clockid_t clock, Time *end), \
         (lock, clock, end)) \
    CALL(OF_SEMAPHORES, sem_wait, (sem_t * semaphore), (semaphore)) \
    CALL(OF_SEMAPHORES, sem_trywait, (sem_t * semaphore), (semaphore)) \
    CALL(OF_SEMAPHORES, sem_timedwait, (sem_t * semaphore, Time *end), (semaphore, end)) \
    CALL(OF_SEMAPHORES, sem_clockwait, (sem_t * semaphore, clockid_t clock, Time *end), (semaphore, clock, end)) \
    CALL(OF_SEMAPHORES, sem_post, (sem_t * semaphore), (semaphore)) \
    CALL(OF_SPIN_LOCKS, pthread_spin_lock, (pthread_spinlock_t * lock), (lock)) \
    CALL(OF_SPIN_LOCKS, pthread_spin_trylock, (pthread_spinlock_t * lock), (lock)) \
    CALL(OF_SPIN_LOCKS, pthread_spin_unlock, (pthread_spinlock_t * lock), (lock)) \
    CALL(OF_BARRIERS, pthread_barrier_wait, (pthread_barrier_t * barrier), (barrier)) \
    CALL(OF_ONCE, pthread_once, (pthread_once_t * once, void (*body)(void)), (once, body)) \
    CALL(OF_C11_MUTEXES, mtx_lock, (mtx_t * mutex), (mutex)) \
    CALL(OF_C11_MUTEXES, mtx_trylock, (mtx_t * mutex), (mutex)) \
    CALL(OF_C11_MUTEXES, mtx_timedlock, (mtx_t * mutex, Time *end), (mutex, end)) \
    CALL(OF_C11_MUTEXES, mtx_unlock, (mtx_t * mutex), (mutex)) \
    CALL(OF_C11_VARIABLES, cnd_wait, (cnd_t * variable, mtx_t * mutex), (variable, mutex)) \
    CALL(OF_C11_VARIABLES, cnd_timedwait, (cnd_t * variable, mtx_t * mutex, Time *end), (variable, mutex, end)) \
    CALL(OF_C11_VARIABLES, cnd_signal, (cnd_t * variable), (variable)) \
    CALL(OF_C11_VARIABLES, cnd_broadcast, (cnd_t * variable), (variable)) \
    CALL(OF_POLICIES, sched_setscheduler, (pid_t thread, int policy, const struct sched_param *parameters), \
         (thread, policy, parameters)) \
    CALL(OF_POLICIES, sched_setparam, (pid_t thread, const struct sched_param *parameters), (thread, parameters))

typedef const struct timespec Time;

#define POINTER(kind, name, parameters, arguments) int(*name) parameters;
static struct {
    COUNTED_CALLS(POINTER)
    int (*mtx_init)(mtx_t *, int);
    int (*cnd_init)(cnd_t *);
    void (*call_once)(once_flag *, void (*)(void));
    void *(*dlopen)(const char *, int);
    void *(*dlmopen)(Lmid_t, const char *, int);
} real_others;

#define FIND(kind, name, parameters, arguments) *(void **)&real_others.name = below(#name);
void find_others(void)
{
    COUNTED_CALLS(FIND)
    FIND(, mtx_init, , )
    FIND(, cnd_init, , )
    FIND(, call_once, , )
    FIND(, dlopen, , )
    FIND(, dlmopen, , )
}

#define COUNT_CALL(kind, name, parameters, arguments) \
    int name parameters \
    { \
        be_ready(); \
        pass_by(kind); \
        return real_others.name arguments; \
    }
COUNTED_CALLS(COUNT_CALL)

OLD_NAME("__pthread_once", pthread_once);
OLD_NAME("__pthread_rwlock_rdlock", pthread_rwlock_rdlock);
OLD_NAME("__pthread_rwlock_wrlock", pthread_rwlock_wrlock);
OLD_NAME("__pthread_rwlock_tryrdlock", pthread_rwlock_tryrdlock);
OLD_NAME("__pthread_rwlock_trywrlock", pthread_rwlock_trywrlock);
OLD_NAME("__pthread_rwlock_unlock", pthread_rwlock_unlock);
OLD_NAME("__sched_setscheduler", sched_setscheduler);

void call_once(once_flag *once, void (*body)(void))
{
    be_ready();
    pass_by(OF_C11_ONCE);
    real_others.call_once(once, body);
}

/* mtx_t and cnd_t of C11 are used inside of the library, where no call can be seen. */
int mtx_init(mtx_t *mutex, int type)
{
    be_ready();
    if (atomic_load(&recording))
        count(C11_OBJECTS);
    return real_others.mtx_init(mutex, type);
}

int cnd_init(cnd_t *variable)
{
    be_ready();
    if (atomic_load(&recording))
        count(C11_OBJECTS);
    return real_others.cnd_init(variable);
}

/* glibc looks for the library as its caller says. It has to see the program's code there, and not this function's: so
   the last call has to be a jump, as gcc makes it. host/record/test asks that. */
__attribute__((optimize("O2"))) void *dlopen(const char *file, int mode)
{
    be_ready();
    if ((mode & RTLD_DEEPBIND) != 0)
        pass_by(DEEP_LIBRARIES);
    return real_others.dlopen(file, mode);
}

__attribute__((optimize("O2"))) void *dlmopen(Lmid_t namespace, const char *file, int mode)
{
    be_ready();
    if (namespace != LM_ID_BASE || (mode & RTLD_DEEPBIND) != 0)
        pass_by(namespace != LM_ID_BASE ? OTHER_NAMESPACES : DEEP_LIBRARIES);
    return real_others.dlmopen(namespace, file, mode);
}
