/* The calls of C11's <threads.h>: those of pthread under other names and answers. */
#define _GNU_SOURCE
#include <errno.h>
#include <threads.h>

#include "schedule.h"

typedef struct {
    thrd_start_t start;
    void *argument;
} Start;

static int answer_of(int answer)
{
    switch (answer) {
    case 0:
        return thrd_success;
    case EBUSY:
        return thrd_busy;
    case ETIMEDOUT:
        return thrd_timedout;
    case ENOMEM:
        return thrd_nomem;
    default:
        return thrd_error;
    }
}

int mtx_lock(mtx_t *mutex) { return answer_of(pthread_mutex_lock((pthread_mutex_t *)mutex)); }

int mtx_trylock(mtx_t *mutex) { return answer_of(pthread_mutex_trylock((pthread_mutex_t *)mutex)); }

int mtx_timedlock(mtx_t *restrict mutex, const struct timespec *restrict deadline)
{
    return answer_of(pthread_mutex_timedlock((pthread_mutex_t *)mutex, deadline));
}

int mtx_unlock(mtx_t *mutex) { return answer_of(pthread_mutex_unlock((pthread_mutex_t *)mutex)); }

void mtx_destroy(mtx_t *mutex) { pthread_mutex_destroy((pthread_mutex_t *)mutex); }

int cnd_init(cnd_t *variable) { return answer_of(pthread_cond_init((pthread_cond_t *)variable, NULL)); }

int cnd_wait(cnd_t *variable, mtx_t *mutex)
{
    return answer_of(pthread_cond_wait((pthread_cond_t *)variable, (pthread_mutex_t *)mutex));
}

int cnd_timedwait(cnd_t *restrict variable, mtx_t *restrict mutex, const struct timespec *restrict deadline)
{
    return answer_of(pthread_cond_timedwait((pthread_cond_t *)variable, (pthread_mutex_t *)mutex, deadline));
}

int cnd_signal(cnd_t *variable) { return answer_of(pthread_cond_signal((pthread_cond_t *)variable)); }

int cnd_broadcast(cnd_t *variable) { return answer_of(pthread_cond_broadcast((pthread_cond_t *)variable)); }

void cnd_destroy(cnd_t *variable) { pthread_cond_destroy((pthread_cond_t *)variable); }

static void *run_start(void *value)
{
    const Start *start = value;

    return (void *)(intptr_t)start->start(start->argument);
}

int thrd_create(thrd_t *name, thrd_start_t start, void *argument)
{
    Start *kept = take_memory(sizeof *kept);

    if (kept == NULL)
        return thrd_nomem;
    *kept = (Start){start, argument};
    return answer_of(pthread_create(name, NULL, run_start, kept));
}

int thrd_join(thrd_t name, int *result)
{
    void *value;
    int answer = pthread_join(name, &value);

    if (answer == 0 && result != NULL)
        *result = (int)(intptr_t)value;
    return answer_of(answer);
}

int thrd_detach(thrd_t name) { return answer_of(pthread_detach(name)); }
