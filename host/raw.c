/* The way `raw`: the calls on mutexes, one access of a word or one kernel call a step, on this machine's kernel.

   docs/DEATHS.md names the same steps. An answer of the kernel that the tables don't have is answered by its number. */
#include <stddef.h>
#include <string.h>
#include <sys/syscall.h>
#include <unistd.h>

#include "futex.h"
#include "host.h"
#include "raw.h"

enum { PI = 1, MOST_TIMES = 255 }; /* PI: the bit by which a list's entry says that its word is of that kind */

static Mutex *mutex_named(Worker *worker) { return mutex_of(worker->host, worker->request.mutex); }

int next(Worker *worker, Place place)
{
    worker->steps.place = place;
    return WENT;
}

static uint32_t number_of(const Worker *worker) { return (uint32_t)worker->kernel_id; }

static bool is_own(const Worker *worker, uint32_t word) { return (word & FUTEX_TID_MASK) == number_of(worker); }

uint32_t load_word(const uint32_t *word) { return __atomic_load_n(word, __ATOMIC_SEQ_CST); }

bool exchange_word(uint32_t *word, uint32_t *expected, uint32_t value)
{
    return __atomic_compare_exchange_n(word, expected, value, false, __ATOMIC_SEQ_CST, __ATOMIC_SEQ_CST);
}

static struct robust_list *entry_of(RawMutex *raw) { return (struct robust_list *)((uintptr_t)&raw->node | PI); }

static RawMutex *mutex_at(struct robust_list *entry) { return (RawMutex *)((uintptr_t)entry & ~(uintptr_t)PI); }

void list_raw(Worker *worker)
{
    struct robust_list_head *head = &worker->steps.head;

    head->list.next = &head->list;
    head->futex_offset = (long)offsetof(RawMutex, word) - (long)offsetof(RawMutex, node);
    syscall(SYS_set_robust_list, head, sizeof *head);
}

static void name_pending(Worker *worker, RawMutex *raw)
{
    struct robust_list **pending = &worker->steps.head.list_op_pending;

    __atomic_store_n(pending, raw == NULL ? NULL : entry_of(raw), __ATOMIC_SEQ_CST);
}

/* Where an owner locks again. */
static int count_once_more(Mutex *mutex)
{
    if (mutex->raw.times == MOST_TIMES)
        return EAGAIN;
    mutex->raw.times++;
    return 0;
}

/* What follows once the thread owns the mutex. */
static int own(Worker *worker, Place next_place)
{
    Mutex *mutex = mutex_named(worker);

    mutex->raw.times = 1;
    worker->steps.died = false;
    return mutex->robust ? next(worker, next_place) : told_answer(worker, 0);
}

int told_answer(const Worker *worker, int answer)
{
    bool wait = worker->request.wish == WAIT || worker->request.wish == TIMEDWAIT;

    return wait && worker->steps.expired && answer == 0 ? ETIMEDOUT : answer;
}

int lock_load(Worker *worker)
{
    Mutex *mutex = mutex_named(worker);

    if (!is_own(worker, load_word(&mutex->raw.word)))
        return next(worker, mutex->robust ? LOCK_PENDING : LOCK_EXCHANGE);
    if (mutex->kind == NORMAL)
        return next(worker, LOCK_STOP);
    return mutex->kind == ERRORCHECK ? EDEADLK : count_once_more(mutex);
}

int lock_pending(Worker *worker)
{
    name_pending(worker, &mutex_named(worker)->raw);
    return next(worker, LOCK_EXCHANGE);
}

int lock_exchange(Worker *worker)
{
    uint32_t free_word = 0;

    if (exchange_word(&mutex_named(worker)->raw.word, &free_word, number_of(worker)))
        return own(worker, TAKE_HEALTH);
    return next(worker, LOCK_ASK);
}

/* A refusal by the kernel, or a deadline. */
static int lock_refused(Worker *worker, int error, Place step)
{
    worker->steps.result = error;
    return mutex_named(worker)->robust ? next(worker, step) : error;
}

/* The lock is the thread's: the step at which it sees that. Behind a wait it is the first one of what follows. */
int lock_given(Worker *worker, bool waited)
{
    int answer = own(worker, TAKE_LOAD);

    return waited && answer == WENT ? take_load(worker) : answer;
}

int lock_ask(Worker *worker)
{
    const struct timespec *until = worker->request.wish == TIMEDLOCK ? &worker->until : NULL;
    long result;

    do
        result = futex_call(&mutex_named(worker)->raw.word, FUTEX_LOCK_PI_PRIVATE, 0, until, NULL, 0);
    while (result == -EAGAIN);
    bool waited = wait_in_kernel(worker);
    if (result == 0)
        return lock_given(worker, waited);
    return result == -ESRCH ? next(worker, LOCK_STOP) : lock_refused(worker, (int)-result, LOCK_CLEAR);
}

int lock_stop(Worker *worker)
{
    const struct timespec *until = worker->request.wish == TIMEDLOCK ? &worker->until : NULL;
    long operation = FUTEX_WAIT_BITSET | FUTEX_PRIVATE_FLAG | FUTEX_CLOCK_REALTIME;
    long result;

    do
        result = futex_call(&worker->nowhere, operation, 0, until, NULL, FUTEX_BITSET_MATCH_ANY);
    while (result != -ETIMEDOUT);
    wait_in_kernel(worker);
    return lock_refused(worker, ETIMEDOUT, LOCK_CLEAR);
}

int lock_clear(Worker *worker)
{
    name_pending(worker, NULL);
    return worker->steps.result;
}

int take_load(Worker *worker)
{
    worker->steps.died = (load_word(&mutex_named(worker)->raw.word) & FUTEX_OWNER_DIED) != 0;
    return next(worker, TAKE_HEALTH);
}

int take_health(Worker *worker)
{
    if (load_word(&mutex_named(worker)->raw.health) == UNUSABLE)
        return next(worker, LEAVE_EXCHANGE);
    worker->steps.result = worker->steps.died ? EOWNERDEAD : 0;
    return next(worker, worker->steps.died ? TAKE_SPOIL : TAKE_NEXT);
}

int take_spoil(Worker *worker)
{
    __atomic_store_n(&mutex_named(worker)->raw.health, INCONSISTENT, __ATOMIC_SEQ_CST);
    return next(worker, TAKE_CLEAN);
}

int take_clean(Worker *worker)
{
    __atomic_fetch_and(&mutex_named(worker)->raw.word, ~FUTEX_OWNER_DIED, __ATOMIC_SEQ_CST);
    return next(worker, TAKE_NEXT);
}

int take_next(Worker *worker)
{
    __atomic_store_n(&mutex_named(worker)->raw.node.next, worker->steps.head.list.next, __ATOMIC_SEQ_CST);
    return next(worker, TAKE_HEAD);
}

int take_head(Worker *worker)
{
    __atomic_store_n(&worker->steps.head.list.next, entry_of(&mutex_named(worker)->raw), __ATOMIC_SEQ_CST);
    return next(worker, TAKE_CLEAR);
}

int take_clear(Worker *worker)
{
    name_pending(worker, NULL);
    return told_answer(worker, worker->steps.result);
}

int leave_exchange(Worker *worker)
{
    uint32_t word = number_of(worker);

    return next(worker, exchange_word(&mutex_named(worker)->raw.word, &word, 0) ? LEAVE_CLEAR : LEAVE_ASK);
}

static long give_back(Worker *worker)
{
    return futex_call(&mutex_named(worker)->raw.word, FUTEX_UNLOCK_PI_PRIVATE, 0, NULL, NULL, 0);
}

int leave_ask(Worker *worker)
{
    give_back(worker);
    return next(worker, LEAVE_CLEAR);
}

int leave_clear(Worker *worker)
{
    name_pending(worker, NULL);
    return ENOTRECOVERABLE;
}

int try_load(Worker *worker)
{
    Mutex *mutex = mutex_named(worker);

    if (!is_own(worker, load_word(&mutex->raw.word)))
        return next(worker, mutex->robust ? TRY_PENDING : TRY_EXCHANGE);
    return mutex->kind == RECURSIVE ? count_once_more(mutex) : EBUSY;
}

int try_pending(Worker *worker)
{
    name_pending(worker, &mutex_named(worker)->raw);
    return next(worker, TRY_EXCHANGE);
}

int try_exchange(Worker *worker)
{
    uint32_t free_word = 0;

    if (exchange_word(&mutex_named(worker)->raw.word, &free_word, number_of(worker)))
        return own(worker, TAKE_HEALTH);
    return next(worker, TRY_ASK);
}

int try_ask(Worker *worker)
{
    long result = futex_call(&mutex_named(worker)->raw.word, FUTEX_TRYLOCK_PI_PRIVATE, 0, NULL, NULL, 0);

    if (result == 0)
        return lock_given(worker, false);
    return lock_refused(worker, result == -EAGAIN ? EBUSY : (int)-result, LOCK_CLEAR);
}

int unlock_load(Worker *worker)
{
    Mutex *mutex = mutex_named(worker);

    if (!is_own(worker, load_word(&mutex->raw.word)))
        return EPERM;
    if (mutex->raw.times > 1) {
        mutex->raw.times--;
        return 0;
    }
    return next(worker, mutex->robust ? UNLOCK_PENDING : UNLOCK_EXCHANGE);
}

int unlock_pending(Worker *worker)
{
    name_pending(worker, &mutex_named(worker)->raw);
    return next(worker, UNLOCK_HEALTH);
}

int unlock_health(Worker *worker)
{
    bool fine = load_word(&mutex_named(worker)->raw.health) != INCONSISTENT;

    return next(worker, fine ? UNLOCK_UNLINK : UNLOCK_SPOIL);
}

int unlock_spoil(Worker *worker)
{
    __atomic_store_n(&mutex_named(worker)->raw.health, UNUSABLE, __ATOMIC_SEQ_CST);
    return next(worker, UNLOCK_UNLINK);
}

/* To find the place reads what is the thread's own; to unlink is one write. */
int unlock_unlink(Worker *worker)
{
    RawMutex *raw = &mutex_named(worker)->raw;
    struct robust_list *before = &worker->steps.head.list;

    while (before->next != entry_of(raw))
        before = &mutex_at(before->next)->node;
    __atomic_store_n(&before->next, raw->node.next, __ATOMIC_SEQ_CST);
    return next(worker, UNLOCK_EXCHANGE);
}

/* Behind the release: an unlock ends, and a wait goes on. */
static int released(Worker *worker)
{
    if (worker->request.wish != UNLOCK)
        return next(worker, WAIT_PARK);
    return mutex_named(worker)->robust ? next(worker, UNLOCK_CLEAR) : 0;
}

int unlock_exchange(Worker *worker)
{
    uint32_t word = number_of(worker);

    if (exchange_word(&mutex_named(worker)->raw.word, &word, 0))
        return released(worker);
    return next(worker, UNLOCK_ASK);
}

int unlock_ask(Worker *worker)
{
    long result = give_back(worker);

    return result == 0 ? released(worker) : (int)-result;
}

int unlock_clear(Worker *worker)
{
    name_pending(worker, NULL);
    return 0;
}

int repair_load(Worker *worker)
{
    Mutex *mutex = mutex_named(worker);

    if (!mutex->robust)
        return EINVAL;
    return is_own(worker, load_word(&mutex->raw.word)) ? next(worker, REPAIR_HEALTH) : EPERM;
}

int repair_health(Worker *worker)
{
    bool broken = load_word(&mutex_named(worker)->raw.health) == INCONSISTENT;

    return broken ? next(worker, REPAIR_STORE) : EINVAL;
}

int repair_store(Worker *worker)
{
    __atomic_store_n(&mutex_named(worker)->raw.health, FINE, __ATOMIC_SEQ_CST);
    return 0;
}

int wait_load(Worker *worker)
{
    Host *host = worker->host;
    Mutex *mutex = mutex_named(worker);

    if (cond_of(host, worker->request.cond)->mutex != worker->request.mutex)
        return EINVAL;
    if (!is_own(worker, load_word(&mutex->raw.word)))
        return EPERM;
    return mutex->raw.times > 1 ? EINVAL : next(worker, WAIT_READ);
}
