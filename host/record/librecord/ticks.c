/* The time of the history: a tick stands before the first line whose greatest clock reaches an open deadline. */
#define _GNU_SOURCE
#include "record.h"

bool make_clock(History *history)
{
    size_t number = 0;

    for (Thread *thread = atomic_load(&run->threads); thread != NULL; thread = thread->next)
        number++;
    history->waiting = map_memory((number + 1) * sizeof(Thread *));
    history->least_deadline = UINT64_MAX;
    return history->waiting != NULL;
}

/* One that the time has reached already needs no tick. So it is behind the start, and not 0. */
static void open_deadline(History *history, Thread *thread, uint64_t deadline)
{
    if (ticks_of_deadline(history, deadline) <= history->tick)
        return;
    thread->deadline = deadline;
    thread->waiting_at = history->waiting_count;
    history->waiting[history->waiting_count++] = thread;
    if (thread->deadline < history->least_deadline)
        history->least_deadline = thread->deadline;
}

void forget_deadline(History *history, Thread *thread)
{
    if (thread->deadline == 0)
        return;
    Thread *last = history->waiting[--history->waiting_count];
    history->waiting[thread->waiting_at] = last;
    last->waiting_at = thread->waiting_at;
    thread->deadline = 0;
}

/* Forgets the deadlines that are reached; says whether there are any. */
static bool reach_deadlines(History *history)
{
    uint32_t at = 0, before = history->waiting_count;

    history->least_deadline = UINT64_MAX;
    while (at < history->waiting_count) {
        Thread *thread = history->waiting[at];
        if (thread->deadline <= history->greatest_time) {
            forget_deadline(history, thread);
            continue;
        }
        if (thread->deadline < history->least_deadline)
            history->least_deadline = thread->deadline;
        at++;
    }
    return history->waiting_count < before;
}

static bool opens_deadline(const Record *record, uint64_t place)
{
    bool is_timed = record->what == CALL_TIMEDLOCK || record->what == CALL_TIMEDWAIT;

    return is_timed && !record->bad_time && is_begin(record, place) && is_written(record);
}

void pass_time(History *history, const Record *record, uint64_t place)
{
    uint64_t time = time_at(record, place);

    if (time > history->greatest_time)
        history->greatest_time = time;
    if (opens_deadline(record, place))
        open_deadline(history, record->thread, record->deadline);
    if (history->greatest_time < history->least_deadline || !reach_deadlines(history))
        return;
    history->tick = ticks_of(history, history->greatest_time);
    put_text("tick ");
    put_number(history->tick);
    end_line();
}
