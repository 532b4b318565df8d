/* What is left out with all calls on it, so that no history has half of an object; and what is said of it. */
#define _GNU_SOURCE
#include "record.h"

/* What a cancelled thread used is in a state that the history would not show. */
static bool leave_out_of_call(Record *record)
{
    bool is_changed = false;

    if (atomic_load(&record->thread->cancelled)) {
        is_changed = leave_out(record->object, WITH_CANCELLED);
        is_changed |= is_wait(record) && leave_out(record->mutex, WITH_CANCELLED);
    }
    if (!is_wait(record))
        return is_changed;
    if (atomic_load(&record->object->left_out) != KEPT)
        is_changed |= leave_out(record->mutex, WITH_LEFT_OUT);
    if (atomic_load(&record->mutex->left_out) != KEPT)
        is_changed |= leave_out(record->object, WITH_LEFT_OUT);
    return is_changed;
}

void leave_out_cancelled(History *history)
{
    bool is_changed = true;

    while (is_changed) {
        is_changed = false;
        for (uint64_t place = 1; place < history->cut; place++) {
            Record *record = history->at[place];
            if (record != NULL && is_call(record) && record->what != CALL_SETPRIO && is_begin(record, place))
                is_changed |= leave_out_of_call(record);
        }
    }
}

static void say_some(uint64_t number, const char *what)
{
    if (number != 0)
        say(what, number, "");
}

static uint64_t cancelled_threads(void)
{
    uint64_t number = 0;

    for (Thread *thread = atomic_load(&run->threads); thread != NULL; thread = thread->next)
        number += atomic_load(&thread->cancelled);
    return number;
}

void note_dropped(History *history, const Record *record)
{
    if (atomic_load(&record->thread->cancelled))
        return;
    if (record->what == CALL_SETPRIO)
        history->refused += record->named->number != 0;
    else if (atomic_load(&record->object->left_out) != KEPT)
        return;
    else if (record->bad_time)
        history->bad_times++;
    else
        history->unwaited++;
}

static void count_dropped(History *history)
{
    for (uint64_t place = 1; place < history->cut; place++) {
        const Record *record = history->at[place];
        if (record != NULL && is_call(record) && is_begin(record, place) && !is_written(record))
            note_dropped(history, record);
    }
}

static void say_line(const char *line) { say(line, 0, NULL); }

void say_left_out(History *history)
{
    count_dropped(history);
    say_some(left_out(PROTECTED), "left out: mutexes with PTHREAD_PRIO_PROTECT: ");
    say_some(left_out(SHARED), "left out: mutexes and variables shared between processes: ");
    say_some(left_out(UNIDENTIFIED), "left out: shared mutexes and variables whose memory can't be identified: ");
    say_some(left_out(HELD_AT_FORK), "left out: copies of mutexes that were held when a process was forked: ");
    say_some(counted(C11_OBJECTS), "left out: mutexes and variables of C11 (mtx_t, cnd_t): ");
    say_some(cancelled_threads(), "left out: threads that were cancelled inside a call: ");
    say_some(left_out(WITH_CANCELLED), "left out: mutexes and variables that such threads used: ");
    say_some(left_out(IN_CALLS), "left out: mutexes and variables used inside another call of the same thread: ");
    say_some(left_out(WITH_LEFT_OUT), "left out: mutexes and variables used together with one that is left out: ");
    say_some(history->bad_times, "left out: calls with a time that is none, answered EINVAL: ");
    say_some(history->unwaited, "left out: signals and broadcasts of variables on which nobody waited: ");
    say_some(history->refused, "left out: calls that give a priority, answered EPERM: ");
    say_some(counted(FOREIGN_PRIORITIES), "left out: calls that give a policy or a priority which a history has not: ");
    say_some(counted(UNKNOWN_THREADS), "left out: calls that name a thread which isn't recorded: ");
    say_some(counted(PRIORITIES_IN_CALLS),
             "left out: calls that give a priority inside another call of the same thread: ");
    say_some(history->missed, "missed: calls on mutexes, since a thread got one that it had: ");
    say_some(history->found_free, "missed: calls on mutexes, since a thread found one free that another one had: ");
    tell_passed(history, say_line);
    if (is_parted_run() && lost_place() != UINT64_MAX)
        say("cut where a part could not be made, or memory was short", 0, NULL);
    else if (lost_place() <= history->cut)
        say("cut where a thread had more records than RECORD_MAX, or memory was short: ",
            is_shared_run() ? atomic_load(&run->most_records) : most_records, "");
    if (history->is_late)
        say("cut after 4294967294 microseconds", 0, NULL);
}
