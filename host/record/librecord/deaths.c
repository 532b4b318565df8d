/* Where threads die in the history, and whole processes.

   - `dying` stands at the stamp of a thread's end, or behind a call that came later. Who was joined without a stamp left
     by other ways, and was alive at its last line. A thread with a call open isn't dying, unless it was joined, or its
     process has ended, or may have been killed.
   - `process` stands before the `dying` of threads that end with their process, and names them. The last line at which
     the process lived also has it, with those of its threads that have ended before: by the rule `stays_locked` a robust
     mutex may have stayed with them.
   - It stands only if one of its threads may have a robust mutex, since it says nothing of others. If no process goes on
     behind it, that is a thread which hasn't ended. */
#define _GNU_SOURCE
#include <errno.h>
#include <string.h>

#include "record.h"

static Process *process_of(const Thread *thread)
{
    static Process only;

    return thread->process != NULL ? thread->process : &only;
}

/* Also another program that it ran before: what one of that's threads left is passed on when the process ends. */
static bool is_of_process(const Thread *thread, const Process *process)
{
    const Process *own = process_of(thread);

    return own->number == process->number && own->space == process->space;
}

/* Who was alive behind the stamp was alive at it. */
static void note_end_of_process(const Record *record, uint64_t place)
{
    for (Thread *thread = atomic_load(&run->threads); thread != NULL; thread = thread->next) {
        if (thread->process != record->process || atomic_load(&thread->alive_place) != record->stamp)
            continue;
        thread->last_place = place;
        if (atomic_load(&record->is_sure))
            process_of(thread)->end_place = place;
    }
}

/* By another process than its own, which has waited for that. */
static void note_end(Thread *ended, const Thread *maker, uint64_t place)
{
    ended->ended_place = ended->ended_place == 0 ? place : ended->ended_place;
    if (!is_of_process(ended, process_of(maker)))
        process_of(ended)->is_over = true;
}

static void note_place(Record *record, uint64_t place)
{
    record->thread->last_place = place;
    if (record->what == THREAD_ADDED)
        record->named->last_place = place;
    else if (record->what == THREAD_DYING)
        record->thread->dying_place = place;
    else if (record->what == THREAD_ENDED)
        note_end(record->named, record->thread, place);
    else if (record->what == PROCESS_ENDS)
        note_end_of_process(record, place);
    else if (is_call(record))
        record->thread->open = is_begin(record, place) ? record : NULL;
}

static void note_process(const Thread *thread)
{
    Process *process = process_of(thread);

    process->is_over |= process->end_place != 0;
    if (thread->last_place > process->last_place)
        process->last_place = thread->last_place;
}

/* Of a shared run: whether another process goes on behind that place. */
static bool may_be_survived(const Process *process, uint64_t place)
{
    for (const Process *other = atomic_load(&run->processes); other != NULL; other = other->next)
        if (other != process && other->last_place > place)
            return true;
    return false;
}

static void note_survivors(void)
{
    for (Process *process = atomic_load(&run->processes); process != NULL; process = process->next)
        process->is_survived = may_be_survived(process, process->last_place);
}

/* Who wasn't alive at the last stamp of its process's end had left before, by other ways. */
static bool ends_with_process(const Thread *thread)
{
    const Process *process = process_of(thread);

    return process->is_over && thread->last_place >= process->end_place && thread->dying_place == 0
           && !atomic_load(&thread->joined);
}

static void place_death(Thread *thread)
{
    thread->ends_with_process = ends_with_process(thread);
    thread->is_survived = thread->ended_place != 0 || may_be_survived(process_of(thread), thread->last_place);
    bool is_gone = thread->is_survived || thread->ends_with_process;

    if ((is_gone || thread->dying_place != 0) && thread->last_place > thread->dying_place)
        thread->dying_place = thread->open != NULL && !is_gone ? 0 : thread->last_place;
    thread->open = NULL;
}

void place_deaths(History *history)
{
    for (uint64_t place = 1; place < history->cut; place++)
        if (history->at[place] != NULL)
            note_place(history->at[place], place);
    for (Thread *thread = atomic_load(&run->threads); thread != NULL; thread = thread->next)
        note_process(thread);
    note_survivors();
    for (Thread *thread = atomic_load(&run->threads); thread != NULL; thread = thread->next)
        place_death(thread);
}

static bool is_robust(const Object *mutex) { return (mutex->kind & KIND_ROBUST) != 0; }

static void give(Object *mutex, Thread *thread)
{
    mutex->holds = mutex->holder == thread ? mutex->holds + 1 : 1;
    mutex->holder = thread;
}

static void give_up(Object *mutex)
{
    if (--mutex->holds == 0)
        mutex->holder = NULL;
}

/* A wait gives its mutex up and has it again; meanwhile its thread has a call open. */
void note_holder(const Record *record)
{
    bool is_given = record->answer == 0 || record->answer == EOWNERDEAD;

    if (record->what == CALL_LOCK || record->what == CALL_TRYLOCK || record->what == CALL_TIMEDLOCK) {
        if (is_given)
            give(record->object, record->thread);
    } else if (record->what == CALL_UNLOCK) {
        if (record->answer == 0 && record->object->holder == record->thread)
            give_up(record->object);
    } else if (is_wait(record) && (is_given || record->answer == ETIMEDOUT)) {
        if (record->mutex->holder != record->thread)
            give(record->mutex, record->thread);
    }
}

/* Of a call: its mutex; NULL if it has none. */
static const Object *mutex_of(const Record *call)
{
    if (is_wait(call))
        return call->mutex;
    return call->what == CALL_SETPRIO || is_use(call->what) ? NULL : call->object;
}

/* Whether somebody may see what becomes of a mutex that this thread has. */
static bool is_asked(const Thread *thread, const Process *process)
{
    return is_of_process(thread, process) && (thread->ends_with_process || process->is_survived);
}

static bool has_robust(const History *history, const Process *process)
{
    for (const Object *mutex = history->first_mutex; mutex != NULL; mutex = mutex->next_line)
        if (is_robust(mutex) && mutex->holder != NULL && is_asked(mutex->holder, process))
            return true;
    return false;
}

/* A call that is open may have got its mutex. */
static bool asks_for_robust(const History *history, const Process *process)
{
    for (uint32_t i = 0; i < history->thread_count; i++) {
        const Thread *thread = history->threads[i];
        const Object *mutex = thread->open == NULL ? NULL : mutex_of(thread->open);
        if (mutex != NULL && is_robust(mutex) && is_asked(thread, process))
            return true;
    }
    return false;
}

static bool is_named(const Thread *thread, const Process *process, uint64_t place)
{
    if (!is_of_process(thread, process))
        return false;
    return thread->has_end ? place == process->last_place : thread->ends_with_process && thread->dying_place == place;
}

static size_t length_of(const Thread *thread)
{
    char room[MOST_DIGITS + 1];

    return strlen(" t") + strlen(digits_of(thread->number, 10, room));
}

/* Several lines, if one has no room for all. */
static void write_process(const History *history, const Process *process, uint64_t place)
{
    static const char word[] = "process";
    size_t length = 0;

    for (uint32_t i = 0; i < history->thread_count; i++) {
        const Thread *thread = history->threads[i];
        if (!is_named(thread, process, place))
            continue;
        bool is_full = length + length_of(thread) > MOST_OF_LINE;
        if (is_full)
            end_line();
        if (length == 0 || is_full)
            put_text(word);
        length = (length == 0 || is_full ? strlen(word) : length) + length_of(thread);
        put_text(" ");
        put_name('t', thread->number);
    }
    if (length != 0)
        end_line();
}

void write_dying(const Thread *thread)
{
    put_text("dying ");
    put_name('t', thread->number);
    end_line();
}

void write_end(Thread *thread)
{
    if (thread->number == 0)
        return;
    put_text("end ");
    put_name('t', thread->number);
    end_line();
    thread->has_end = true;
}

/* What nobody survives is said with its process alone. */
static void write_deaths_of(const History *history, const Process *process, uint64_t place)
{
    bool is_told = process->is_over && (has_robust(history, process) || asks_for_robust(history, process));

    if (is_told)
        write_process(history, process, place);
    for (uint32_t i = 0; i < history->thread_count; i++) {
        const Thread *thread = history->threads[i];
        bool is_dying = process_of(thread) == process && thread->dying_place == place;
        if (is_dying && (is_told || thread->is_survived || !thread->ends_with_process))
            write_dying(thread);
    }
}

static bool is_there_death(const Thread *thread, uint64_t place)
{
    return thread->dying_place == place || process_of(thread)->last_place == place;
}

void write_deaths(const History *history, const Record *record, uint64_t place)
{
    const Thread *maker = record->thread, *added = record->what == THREAD_ADDED ? record->named : maker;
    const Process *ended = record->what == PROCESS_ENDS ? record->process : NULL;

    if (is_there_death(maker, place) || is_there_death(added, place) || record->what == PROCESS_ENDS)
        write_deaths_of(history, process_of(maker), place);
    if (ended != NULL && ended != maker->process)
        write_deaths_of(history, ended, place);
}
