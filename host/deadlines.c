/* The script's time on this machine's clock.

   A script's time is a number, and a tick sets it. The kernel's time goes on by itself. So each deadline gets a time of
   the clock that lies behind all commands before the tick that reaches it, and that tick lasts until then. If the
   script is slower than was planned, the run is void, and main.c makes it again at a slower pace. */
#include <time.h>

#include "host.h"

static int64_t nanoseconds(struct timespec time) { return time.tv_sec * INT64_C(1000000000) + time.tv_nsec; }

static struct timespec now_and(int64_t more)
{
    struct timespec time;

    clock_gettime(CLOCK_REALTIME, &time);
    int64_t sum = nanoseconds(time) + more;
    return (struct timespec){.tv_sec = sum / 1000000000, .tv_nsec = sum % 1000000000};
}

static bool has_passed(const Worker *worker) { return nanoseconds(worker->until) <= nanoseconds(now_and(0)); }

/* The command that reaches the deadline: this one, a tick behind it, or none. */
static size_t tick_of(const Host *host, uint32_t deadline)
{
    const Script *script = host->script;

    for (size_t i = host->at; deadline > host->time && i < script->count; i++)
        if (script->commands[i].verb == TICK && script->commands[i].numbers[0] >= deadline)
            return i;
    return deadline > host->time ? SIZE_MAX : host->at;
}

void plan_deadline(Host *host, Worker *worker)
{
    static const int64_t hour = INT64_C(3600000000000);
    Wish wish = worker->request.wish;

    worker->timed = wish == TIMEDLOCK || wish == TIMEDWAIT;
    if (!worker->timed)
        return;
    worker->tick = tick_of(host, worker->request.number);
    size_t lines = worker->tick == SIZE_MAX ? 0 : worker->tick - host->at + 1;
    int64_t time = (int64_t)lines * host->pace_ms * 1000000;
    worker->until = now_and(worker->tick == SIZE_MAX ? hour : time);
}

/* A deadline that was reached before its thread waits still lets it be seen to wait. */
void renew_deadline(Host *host, Worker *worker)
{
    if (worker->timed && worker->stage != WORKS && worker->stage != HELD && worker->request.number <= host->time) {
        worker->tick = host->at;
        worker->until = now_and((int64_t)host->pace_ms * 1000000);
    }
}

static bool counts(const Host *host, const Worker *worker)
{
    return worker->open && worker->timed && worker->stage == WORKS && worker->tick <= host->at;
}

void pass_deadlines(Host *host)
{
    for (uint32_t i = 0; i < host->worker_count; i++) {
        const Worker *worker = &host->workers[i];

        while (counts(host, worker) && !has_passed(worker))
            pause_us(500);
        if (counts(host, worker))
            pause_us(1000);
    }
}

static bool passed_early(const Host *host, const Worker *worker)
{
    return worker->timed && worker->tick > host->at && has_passed(worker);
}

void close_deadline(Host *host, Worker *worker) { worker->timed = passed_early(host, worker); }

bool is_late(Host *host)
{
    for (uint32_t i = 0; i < host->worker_count; i++)
        if (passed_early(host, &host->workers[i]))
            return true;
    return false;
}
