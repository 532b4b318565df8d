/* Runs a script: refuses what the script's own numbers refuse, and gives the rest to the threads of this machine. */
#include <stdarg.h>
#include <stdlib.h>
#include <time.h>

#include "host.h"

enum { MOST_STEPS = 24, MOST_LOOKED_AT = 64 };

static const char *const not_asked = "not asked";

static int say(Host *host, const char *format, ...)
{
    va_list arguments;

    va_start(arguments, format);
    bool done = vfprintf(host->output, format, arguments) >= 0 && fputc('\n', host->output) != EOF &&
                fflush(host->output) == 0;
    va_end(arguments);
    return done ? STATUS_DONE : STATUS_INPUT_OUTPUT;
}

static int64_t milliseconds(void)
{
    struct timespec time;

    clock_gettime(CLOCK_MONOTONIC, &time);
    return time.tv_sec * INT64_C(1000) + time.tv_nsec / 1000000;
}

/* Whether the thread is seen in the futex call all of the time that makes a wait. While this runs no other does. */
static bool is_seen_to_wait(Host *host, Worker *worker)
{
    int64_t since = milliseconds();

    while (worker->stage == WORKS && is_in_futex(worker->kernel_id)) {
        if (milliseconds() - since >= host->look_ms)
            return true;
        pause_us(250);
    }
    return false;
}

/* What becomes of the order that a thread has: the call's answer, `went` or `waits`. */
static const char *outcome(Host *host, Worker *worker)
{
    while (worker->stage == WORKS) {
        pause_us(50);
        if (is_seen_to_wait(host, worker)) {
            worker->told = true;
            return "waits";
        }
    }
    if (worker->stage == HELD)
        return "waits";
    if (worker->stage == STEPPED)
        return "went";
    worker->open = false;
    close_deadline(host, worker);
    return "answer";
}

/* Lets all that were woken run until they rest: this thread is above them, and they run while it sleeps. */
static void settle(Host *host)
{
    uint32_t looked = 0;

    pause_us(100);
    for (uint32_t i = 0; i < host->worker_count && looked < MOST_LOOKED_AT; i++) {
        const Worker *worker = &host->workers[i];

        if (!worker->open || worker->stage != WORKS)
            continue;
        looked++;
        while (worker->stage == WORKS && !is_at_rest(worker->kernel_id))
            pause_us(100);
    }
}

/* Lets all that were woken run, but for what is late: it runs once nobody above it keeps the processor. */
static void settle_all(Host *host)
{
    if (host->keeper != NULL)
        return;
    settle(host);
    pass_deadlines(host);
    settle(host);
    take_turns(host);
}

static int say_outcome(Host *host, Worker *worker, const char *word)
{
    settle_all(host);
    return *word == 'a' ? say(host, "answer %d", worker->answer) : say(host, "%s", word);
}

/* One order to a thread: a step under `raw`, and under `glibc` all that is left of the call. */
static const char *go(Host *host, Worker *worker)
{
    if (worker->stage != WORKS && worker->stage != ANSWERED) {
        renew_deadline(host, worker);
        order_in_turn(host, worker);
    }
    const char *word = outcome(host, worker);
    if (*word == 'w' && word[1] == 'a')
        host->keeper = NULL;
    if (host->picks)
        take_turns(host);
    return word;
}

static const char *finish(Host *host, Worker *worker)
{
    const char *word = "went";

    for (int steps = 0; *word == 'w' && word[1] == 'e' && steps < MOST_STEPS; steps++)
        word = go(host, worker);
    return word;
}

static const char *thread_refusal(Host *host, uint32_t name)
{
    if (name > host->worker_count)
        return "refused nosuch";
    return worker_of(host, name)->ended ? "refused dead" : NULL;
}

static const char *begin_refusal(Host *host, const Command *command)
{
    const Request *request = &command->request;
    const char *refusal = thread_refusal(host, command->name);

    if (refusal != NULL)
        return refusal;
    if (worker_of(host, command->name)->open)
        return "refused busy";
    return request->mutex > host->mutex_count || request->cond > host->cond_count ? "refused nosuch" : NULL;
}

static void begin(Host *host, const Command *command)
{
    Worker *worker = worker_of(host, command->name);

    worker->request = command->request;
    worker->open = true;
    worker->stage = RESTS;
    plan_deadline(host, worker);
    if (host->way == RAW)
        begin_raw(worker);
}

/* A call that glibc can't be asked: it has no handle for a thread that was never made. */
static bool is_without_handle(const Host *host, const Command *command)
{
    return host->way == GLIBC && command->request.wish == SETPRIO &&
           (command->request.thread > host->worker_count || command->request.thread == 0);
}

/* Takes the processor from who keeps it, and lets all that are late run. */
static void let_go(Host *host)
{
    if (host->keeper == NULL)
        return;
    host->keeper = NULL;
    settle(host);
}

static int do_call(Host *host, const Command *command)
{
    const char *refusal = begin_refusal(host, command);

    if (refusal != NULL)
        return say(host, "%s", refusal);
    if (is_without_handle(host, command))
        return say(host, "%s", not_asked);
    begin(host, command);
    Worker *worker = worker_of(host, command->name);
    return say_outcome(host, worker, finish(host, worker));
}

static int do_begin(Host *host, const Command *command)
{
    const char *refusal = begin_refusal(host, command);

    if (refusal != NULL)
        return say(host, "%s", refusal);
    host->lost = host->way == GLIBC;
    if (host->lost)
        return say(host, "%s", not_asked);
    begin(host, command);
    return say(host, "begun");
}

static int do_go(Host *host, const Command *command)
{
    const char *refusal = thread_refusal(host, command->name);

    if (refusal != NULL)
        return say(host, "%s", refusal);
    Worker *worker = worker_of(host, command->name);
    if (!worker->open)
        return say(host, "refused idle");
    host->lost = host->way == GLIBC && command->verb == GO;
    if (host->lost)
        return say(host, "%s", not_asked);
    if (worker->stage == WORKS)
        let_go(host);
    const char *word = command->verb == GO ? go(host, worker) : finish(host, worker);
    return say_outcome(host, worker, word);
}

static int do_end(Host *host, const Command *command)
{
    const char *refusal = thread_refusal(host, command->name);

    if (refusal != NULL)
        return say(host, "%s", refusal);
    let_go(host);
    if (!end_worker(worker_of(host, command->name)))
        return STATUS_THREADS;
    settle(host);
    take_turns(host);
    return say(host, "ended");
}

static int do_tick(Host *host, const Command *command)
{
    if (command->numbers[0] < host->time)
        return say(host, "refused past");
    let_go(host);
    host->time = command->numbers[0];
    pass_deadlines(host);
    settle(host);
    take_turns(host);
    return say(host, "ticked");
}

static int add_thread(Host *host, const Command *command)
{
    uint32_t priority = command->numbers[0];

    if (priority < 1 || priority > 99)
        return say(host, "refused badprio");
    if (host->worker_count == host->limits[0])
        return say(host, "refused toomany");
    Worker *worker = &host->workers[host->worker_count++];
    worker->number = host->worker_count;
    let_go(host);
    if (!start_worker(host, worker, priority))
        return STATUS_THREADS;
    place_added(host, worker);
    return say(host, "t%u", host->worker_count);
}

static int add_mutex(Host *host, const Command *command)
{
    if (host->mutex_count == host->limits[1])
        return say(host, "refused toomany");
    Mutex *mutex = &host->mutexes[host->mutex_count++];
    mutex->kind = command->kind;
    mutex->robust = command->robust;
    return make_glibc_mutex(mutex) ? say(host, "m%u", host->mutex_count) : STATUS_MEMORY;
}

static int add_cond(Host *host, const Command *command)
{
    if (command->name > host->mutex_count)
        return say(host, "refused nosuch");
    if (host->cond_count == host->limits[2])
        return say(host, "refused toomany");
    Cond *cond = &host->conds[host->cond_count++];
    cond->mutex = command->name;
    cond->most = host->limits[3];
    return make_glibc_cond(cond) ? say(host, "c%u", host->cond_count) : STATUS_MEMORY;
}

/* A word with this script's number in place of the kernel's. */
static uint32_t with_number(Host *host, uint32_t word)
{
    for (uint32_t i = 0; i < host->worker_count; i++)
        if ((word & FUTEX_TID_MASK) == (uint32_t)host->workers[i].kernel_id)
            return (word & ~FUTEX_TID_MASK) | host->workers[i].number;
    return word;
}

static int say_word(Host *host, const Command *command)
{
    if (command->name > host->mutex_count)
        return say(host, "refused nosuch");
    Mutex *mutex = mutex_of(host, command->name);
    const volatile uint32_t *word =
        host->way == RAW ? &mutex->raw.word : (const volatile uint32_t *)&mutex->glibc.__data.__lock;
    return say(host, "0x%08x", with_number(host, *word));
}

/* glibc keeps the health where it keeps the owner: these are its two greatest numbers. */
static uint32_t health_in_glibc(const Mutex *mutex)
{
    unsigned owner = (unsigned)((const volatile pthread_mutex_t *)&mutex->glibc)->__data.__owner;

    return owner == 0x7fffffff ? 1 : owner == 0x7ffffffe ? 2 : 0;
}

static int say_health(Host *host, const Command *command)
{
    static const char *const names[] = {"fine", "inconsistent", "unusable"};

    if (command->name > host->mutex_count)
        return say(host, "refused nosuch");
    const Mutex *mutex = mutex_of(host, command->name);
    uint32_t health = host->way == RAW ? mutex->raw.health : health_in_glibc(mutex);
    return say(host, "%s", names[mutex->robust ? health : 0]);
}

static int say_condword(Host *host, const Command *command)
{
    if (command->name > host->cond_count)
        return say(host, "refused nosuch");
    if (host->way == GLIBC)
        return say(host, "%s", not_asked);
    return say(host, "%u", cond_of(host, command->name)->word);
}

static int say_priority(Host *host, const Command *command)
{
    if (command->name > host->worker_count)
        return say(host, "refused nosuch");
    const Worker *worker = worker_of(host, command->name);
    return worker->ended ? say(host, "dead") : say(host, "%d", effective_priority(worker->kernel_id));
}

static int say_pick(Host *host)
{
    bool known;
    const Worker *worker = first_in_turn(host, &known);

    if (!known)
        return say(host, "%s", not_asked);
    return worker == NULL ? say(host, "none") : say(host, "t%u", worker->number);
}

static int set_limits(Host *host, const Command *command)
{
    for (int i = 0; i < 4; i++)
        host->limits[i] = command->numbers[i];
    return say(host, "ok");
}

static int do_command(Host *host, const Command *command)
{
    switch (command->verb) {
    case LIMITS: return set_limits(host, command);
    case THREAD: return add_thread(host, command);
    case MUTEX: return add_mutex(host, command);
    case COND: return add_cond(host, command);
    case BEGIN: return do_begin(host, command);
    case GO: return do_go(host, command);
    case END: return do_end(host, command);
    case TICK: return do_tick(host, command);
    case CALL: return do_call(host, command);
    case FINISH: return do_go(host, command);
    case WORD: return say_word(host, command);
    case HEALTH: return say_health(host, command);
    case CONDWORD: return say_condword(host, command);
    case PRIO: return say_priority(host, command);
    case PICK: return say_pick(host);
    }
    return STATUS_FAULT;
}

static bool take_memory(Host *host)
{
    host->workers = calloc(host->limits[0], sizeof *host->workers);
    host->mutexes = calloc(host->limits[1], sizeof *host->mutexes);
    host->conds = calloc(MOST_CONDS, sizeof *host->conds);
    return host->workers != NULL && host->mutexes != NULL && host->conds != NULL;
}

int run_script(Host *host)
{
    int status = STATUS_DONE;

    if (!take_memory(host))
        return STATUS_MEMORY;
    for (host->at = 0; host->at < host->script->count && status == STATUS_DONE; host->at++) {
        status = host->lost ? say(host, "%s", not_asked) : do_command(host, &host->script->commands[host->at]);
        if (status == STATUS_DONE && is_late(host))
            status = STATUS_SLOW;
    }
    return status;
}
