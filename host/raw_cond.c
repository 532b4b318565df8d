/* The way `raw`: the steps of waits, signals, broadcasts and changes of priority, and the table of all steps. */
#include <limits.h>
#include <sched.h>

#include "futex.h"
#include "raw.h"

static Cond *cond_named(Worker *worker) { return cond_of(worker->host, worker->request.cond); }

static int wait_read(Worker *worker)
{
    worker->steps.expected = load_word(&cond_named(worker)->word);
    bool robust = mutex_of(worker->host, worker->request.mutex)->robust;
    return next(worker, robust ? UNLOCK_PENDING : UNLOCK_EXCHANGE);
}

static int wait_park(Worker *worker)
{
    uint32_t *mutex = &mutex_of(worker->host, worker->request.mutex)->raw.word;
    const struct timespec *until = worker->request.wish == TIMEDWAIT ? &worker->until : NULL;
    long operation = FUTEX_WAIT_REQUEUE_PI_PRIVATE | FUTEX_CLOCK_REALTIME;
    uint32_t expected = worker->steps.expected;
    long result = futex_call(&cond_named(worker)->word, operation, expected, until, mutex, 0);
    bool waited = wait_in_kernel(worker);

    worker->steps.expired = result == -ETIMEDOUT;
    if (result == 0)
        return lock_given(worker, waited);
    if (result != -EAGAIN && result != -ETIMEDOUT)
        return (int)-result;
    return waited && result == -EAGAIN ? lock_exchange(worker) : next(worker, LOCK_EXCHANGE);
}

static int use_load(Worker *worker)
{
    Cond *cond = cond_named(worker);

    worker->steps.seen = load_word(&cond->word);
    return worker->steps.seen == cond->most ? EOVERFLOW : next(worker, USE_EXCHANGE);
}

static int use_exchange(Worker *worker)
{
    Cond *cond = cond_named(worker);

    if (exchange_word(&cond->word, &worker->steps.seen, worker->steps.seen + 1)) {
        worker->steps.seen++;
        return next(worker, USE_REQUEUE);
    }
    return worker->steps.seen == cond->most ? EOVERFLOW : WENT;
}

static int use_requeue(Worker *worker)
{
    Cond *cond = cond_named(worker);
    uintptr_t more = worker->request.wish == SIGNAL ? 0 : MOST_THREADS;
    uint32_t *mutex = &mutex_of(worker->host, cond->mutex)->raw.word;
    long result =
        futex_call(&cond->word, FUTEX_CMP_REQUEUE_PI_PRIVATE, 1, (const void *)more, mutex, worker->steps.seen);

    if (result == -EAGAIN)
        return next(worker, USE_LOAD_AGAIN);
    return result >= 0 ? 0 : (int)-result;
}

static int use_load_again(Worker *worker)
{
    worker->steps.seen = load_word(&cond_named(worker)->word);
    return next(worker, USE_REQUEUE);
}

static int set_priority(Worker *worker)
{
    Host *host = worker->host;
    uint32_t name = worker->request.thread;
    pid_t thread = name > host->worker_count ? INT_MAX : worker_of(host, name)->kernel_id;
    struct sched_param parameters = {.sched_priority = (int)worker->request.number};

    return sched_setparam(thread, &parameters) == 0 ? 0 : errno;
}

static int (*const steps[])(Worker *) = {
    [LOCK_LOAD] = lock_load, [LOCK_PENDING] = lock_pending, [LOCK_EXCHANGE] = lock_exchange, [LOCK_ASK] = lock_ask,
    [LOCK_STOP] = lock_stop, [LOCK_CLEAR] = lock_clear,
    [TAKE_LOAD] = take_load, [TAKE_HEALTH] = take_health, [TAKE_SPOIL] = take_spoil, [TAKE_CLEAN] = take_clean,
    [TAKE_NEXT] = take_next, [TAKE_HEAD] = take_head, [TAKE_CLEAR] = take_clear,
    [LEAVE_EXCHANGE] = leave_exchange, [LEAVE_ASK] = leave_ask, [LEAVE_CLEAR] = leave_clear,
    [TRY_LOAD] = try_load, [TRY_PENDING] = try_pending, [TRY_EXCHANGE] = try_exchange, [TRY_ASK] = try_ask,
    [UNLOCK_LOAD] = unlock_load, [UNLOCK_PENDING] = unlock_pending, [UNLOCK_HEALTH] = unlock_health,
    [UNLOCK_SPOIL] = unlock_spoil, [UNLOCK_UNLINK] = unlock_unlink, [UNLOCK_EXCHANGE] = unlock_exchange,
    [UNLOCK_ASK] = unlock_ask, [UNLOCK_CLEAR] = unlock_clear,
    [REPAIR_LOAD] = repair_load, [REPAIR_HEALTH] = repair_health, [REPAIR_STORE] = repair_store,
    [WAIT_LOAD] = wait_load, [WAIT_READ] = wait_read, [WAIT_PARK] = wait_park,
    [USE_LOAD] = use_load, [USE_EXCHANGE] = use_exchange, [USE_REQUEUE] = use_requeue,
    [USE_LOAD_AGAIN] = use_load_again, [SET_PRIORITY] = set_priority,
};

void begin_raw(Worker *worker)
{
    static const Place first[] = {
        [LOCK] = LOCK_LOAD, [TRYLOCK] = TRY_LOAD, [UNLOCK] = UNLOCK_LOAD, [CONSISTENT] = REPAIR_LOAD,
        [WAIT] = WAIT_LOAD, [SIGNAL] = USE_LOAD, [BROADCAST] = USE_LOAD, [SETPRIO] = SET_PRIORITY,
        [TIMEDLOCK] = LOCK_LOAD, [TIMEDWAIT] = WAIT_LOAD};

    worker->steps.place = first[worker->request.wish];
    worker->steps.expired = false;
}

int make_raw_step(Worker *worker) { return steps[worker->steps.place](worker); }
