/* Makes the history of all threads' records: in order, cut where the first of them is missing. It may run in a signal's
   handler, so that it calls nothing that may lock. */
#define _GNU_SOURCE
#include <errno.h>
#include <signal.h>
#include <string.h>

#include "record.h"

enum { NANOSECONDS_OF_TICK = 1000 };
enum { NOT_WRITTEN, IS_BEING_WRITTEN, WRITTEN };

static _Atomic int stage;

bool is_call(const Record *record) { return record->what <= CALL_SETPRIO; }

bool is_wait(const Record *record) { return record->what == CALL_WAIT || record->what == CALL_TIMEDWAIT; }

bool is_begin(const Record *record, uint64_t place) { return record->begin_place == place; }

uint64_t time_at(const Record *record, uint64_t place)
{
    return is_begin(record, place) ? record->begin_time : record->answer_time;
}

uint64_t microseconds_of(const History *history, uint64_t time)
{
    return time <= history->start ? 0 : (time - history->start + NANOSECONDS_OF_TICK - 1) / NANOSECONDS_OF_TICK;
}

uint64_t microseconds_of_deadline(const History *history, uint64_t deadline)
{
    return deadline <= history->start ? 0 : (deadline - history->start) / NANOSECONDS_OF_TICK;
}

/* In a long recording times are numbered in their order. */
static uint64_t numbered(const History *history, uint64_t microseconds)
{
    uint64_t least = 0, most = history->time_count;

    if (history->times == NULL)
        return microseconds;
    while (least < most) {
        uint64_t middle = least + (most - least) / 2;
        if (history->times[middle] < microseconds)
            least = middle + 1;
        else
            most = middle;
    }
    return least;
}

/* Rounded up, so that no implementation is judged early. */
uint64_t ticks_of(const History *history, uint64_t time) { return numbered(history, microseconds_of(history, time)); }

/* Rounded down, likewise. None behind the last tick is ever reached. */
uint64_t ticks_of_deadline(const History *history, uint64_t deadline)
{
    uint64_t ticks = numbered(history, microseconds_of_deadline(history, deadline));

    return ticks > UINT32_MAX ? UINT32_MAX : ticks;
}

static bool is_kept(const Object *object) { return atomic_load(&object->left_out) == KEPT; }

/* Of a call: whether it has lines in the history. */
bool is_written(const Record *record)
{
    bool is_answered = atomic_load(&record->answer_place) != 0;

    if (atomic_load(&record->thread->cancelled))
        return false;
    if (record->what == CALL_SETPRIO)
        return record->named->number != 0 && !(is_answered && record->answer == EPERM);
    if (record->bad_time && is_answered && record->answer == EINVAL)
        return false;
    if (!is_kept(record->object) || (is_wait(record) && !is_kept(record->mutex)))
        return false;
    return !is_use(record->what) || record->object->first_variable != NULL;
}

static void collect_thread(History *history, Thread *thread)
{
    uint32_t used = atomic_load(&thread->used);
    Record *records = atomic_load(&thread->records);

    for (uint32_t i = 0; i < used && i < thread->room; i++) {
        uint64_t begin = atomic_load_explicit(&records[i].begin_place, memory_order_acquire);
        uint64_t answer = atomic_load_explicit(&records[i].answer_place, memory_order_acquire);
        if (begin != 0 && begin < history->cut)
            history->at[begin] = &records[i];
        if (begin != 0 && answer != 0 && answer < history->cut)
            history->at[answer] = &records[i];
    }
}

/* What has a place and isn't there yet is of a thread that hasn't gone on: its call hasn't begun, or it stays open. */
static bool collect(History *history)
{
    uint64_t last = atomic_fetch_add(&run->next_place, 1) + 1, lost = lost_place();

    history->cut = lost < last ? lost : last;
    history->at = map_memory((size_t)history->cut * sizeof *history->at);
    if (history->at == NULL)
        return false;
    for (Thread *thread = atomic_load(&run->threads); thread != NULL; thread = thread->next)
        collect_thread(history, thread);
    return true;
}

/* A tick is a number below 2^32 - 1, so that a deadline behind all of them can be written as that. */
static void cut_by_time(History *history)
{
    uint64_t greatest = 0;

    for (uint64_t place = 1; place < history->cut; place++) {
        const Record *record = history->at[place];
        if (record == NULL)
            continue;
        uint64_t time = time_at(record, place);
        if (history->start == 0)
            history->start = time;
        greatest = time > greatest ? time : greatest;
        if (ticks_of(history, greatest) >= UINT32_MAX) {
            history->cut = place;
            history->is_late = true;
        }
    }
}

/* Whether it is written. */
static bool write_text(History *history, bool *is_opened)
{
    int why = history->no_memory ? ENOMEM : open_text(history_file);

    if (why != 0) {
        leave_file(history_file);
        say_error("RECORD_FILE cannot be opened", history_file, why);
        return false;
    }
    *is_opened = true;
    write_lines(history);
    why = close_text(history_file);
    if (why != 0)
        say_error("RECORD_FILE cannot be written", history_file, why);
    return why == 0;
}

static bool say_no_memory(void)
{
    leave_file(history_file);
    say("no memory to write the history", 0, NULL);
    return false;
}

/* Of records that are in their order. */
bool write_collected(History *history)
{
    if (!make_clock(history))
        return say_no_memory();
    cut_by_time(history);
    place_deaths(history);
    leave_out_cancelled(history);
    number_all(history);
    count_missed(history);
    if (!is_shared_run() && !is_parted_run())
        read_maps();
    bool is_opened = false, is_written = write_text(history, &is_opened);
    if (is_opened)
        say_left_out(history);
    return is_written;
}

static bool make_history(void)
{
    History history;

    memset(&history, 0, sizeof history);
    return collect(&history) ? write_collected(&history) : say_no_memory();
}

void say_no_history(void)
{
    History none;

    memset(&none, 0, sizeof none);
    say_left_out(&none);
}

/* Once. A second thread waits for the first, which no signal interrupts. */
bool write_history(void)
{
    static bool is_good;
    int expected = NOT_WRITTEN;
    sigset_t all, before;

    sigfillset(&all);
    pthread_sigmask(SIG_BLOCK, &all, &before);
    if (atomic_compare_exchange_strong(&stage, &expected, IS_BEING_WRITTEN)) {
        atomic_store(&recording, false);
        is_good = make_history();
        atomic_store(&stage, WRITTEN);
    }
    while (atomic_load(&stage) != WRITTEN)
        rest();
    pthread_sigmask(SIG_SETMASK, &before, NULL);
    return is_good;
}
