/* Who has the processor: whose turn it is among the threads that are ready, and who keeps it behind a command.

   All threads of the script are on one processor, and the driver is above them. A thread that has nothing to do blocks
   in `read`, where it has no place among its equals. So for a script that asks `pick` a step is made in three parts:

   1. The thread that makes the step is woken, and then all that are behind it, in their order. So the kernel has them
      in the lists of their priorities as they stand. Those in front of it stay blocked.
   2. The thread makes its step, and keeps the processor until the driver has seen it.
   3. Then each runs once, in the kernel's order, notes how many have run before it, and blocks in `read` again.

   What a step does to those in front of it isn't seen: a thread that comes to the priority of one of them, or one of
   them whose priority changes, has no known place (`placed`), and `pick` isn't asked where that matters. */
#include <stdlib.h>

#include "host.h"

enum { MOST_PICKED = 64, DRIVERS_PRIORITY = 99 };

bool asks_pick(const Script *script)
{
    for (size_t i = 0; i < script->count; i++)
        if (script->commands[i].verb == PICK)
            return true;
    return false;
}

/* Behind a step: the thread runs on until another is to run. One at the driver's own priority would never end it. */
void keep_processor(Worker *worker)
{
    Host *host = worker->host;

    if (host->keeper != worker || effective_priority(worker->kernel_id) >= DRIVERS_PRIORITY)
        return;
    while (host->keeper == worker && worker->stage != WORKS)
        ;
}

void note_turn(Worker *worker)
{
    if (!worker->host->picks)
        return;
    worker->noted = effective_priority(worker->kernel_id);
    worker->turn = ++worker->host->turns;
}

static bool is_ready(const Worker *worker) { return !worker->ended && worker->stage != WORKS; }

/* By priority, and of equals by turn. */
static int compare_turns(const void *left, const void *right)
{
    const Worker *one = *(Worker *const *)left, *other = *(Worker *const *)right;

    if (one->level != other->level)
        return one->level > other->level ? -1 : 1;
    return one->turn < other->turn ? -1 : one->turn > other->turn;
}

/* The threads that are ready, in their order; the answer is how many. */
static uint32_t gather_ready(Host *host, Worker *ready[static MOST_PICKED])
{
    uint32_t count = 0;

    for (uint32_t i = 0; i < host->worker_count; i++)
        if (is_ready(&host->workers[i]))
            ready[count++] = &host->workers[i];
    qsort(ready, count, sizeof ready[0], compare_turns);
    return count;
}

/* Orders a step, and gives those behind the thread their places. */
void order_in_turn(Host *host, Worker *worker)
{
    Worker *ready[MOST_PICKED];
    bool behind = false;

    if (host->picks || host->late)
        host->keeper = worker;
    uint32_t count = host->picks ? gather_ready(host, ready) : 0;
    host->seen = host->turns;
    order(worker);
    for (uint32_t i = 0; i < count; i++) {
        if (behind)
            rouse(ready[i]);
        behind = behind || ready[i] == worker;
    }
}

static bool has_run(const Host *host, const Worker *worker) { return worker->turn > host->seen; }

/* Whether another that is ready has this priority: any, or one that stayed blocked. */
static bool has_equal(const Host *host, const Worker *worker, bool any)
{
    for (uint32_t i = 0; i < host->worker_count; i++) {
        const Worker *other = &host->workers[i];

        if (other != worker && other->level == worker->level && (any || !has_run(host, other)))
            return true;
    }
    return false;
}

static void look_at_level(Worker *worker)
{
    worker->level_before = worker->level;
    worker->level = is_ready(worker) ? effective_priority(worker->kernel_id) : 0;
}

/* What a step has made of a thread's place. */
static void place(const Host *host, Worker *worker)
{
    bool stays = worker->level == worker->level_before;

    if (!has_equal(host, worker, true))
        worker->placed = true;
    else if (!has_run(host, worker))
        worker->placed = worker->placed && stays;
    else if (worker->noted != worker->level)
        worker->placed = false;
    else if (!stays)
        worker->placed = !has_equal(host, worker, false);
}

/* Ends a step: takes the processor from who keeps it, lets each run once, and looks where they stand. */
void take_turns(Host *host)
{
    host->keeper = NULL;
    if (!host->picks)
        return;
    for (uint32_t i = 0; i < host->worker_count; i++)
        while (!host->workers[i].ended && !is_at_rest(host->workers[i].kernel_id))
            pause_us(50);
    for (uint32_t i = 0; i < host->worker_count; i++)
        look_at_level(&host->workers[i]);
    for (uint32_t i = 0; i < host->worker_count; i++)
        place(host, &host->workers[i]);
    host->seen = host->turns;
}

/* A thread that was added blocks in `read` first, and so it comes behind its equals. */
void place_added(Host *host, Worker *worker)
{
    host->picks = host->picks && host->worker_count <= MOST_PICKED;
    take_turns(host);
    worker->placed = true;
}

/* The thread that runs first, NULL if none is ready; `known` is false where that wasn't seen. */
const Worker *first_in_turn(Host *host, bool *known)
{
    Worker *ready[MOST_PICKED];
    bool unplaced = false;
    uint32_t equals = 0;

    *known = host->picks && !host->late;
    uint32_t count = *known ? gather_ready(host, ready) : 0;
    while (equals < count && ready[equals]->level == ready[0]->level)
        unplaced = !ready[equals++]->placed || unplaced;
    *known = *known && (equals <= 1 || !unplaced);
    return count == 0 ? NULL : ready[0];
}
