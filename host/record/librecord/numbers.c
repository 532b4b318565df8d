/* Which objects and threads have lines in the history, and their numbers. */
#define _GNU_SOURCE
#include "record.h"

static void number_mutex(History *history, Object *mutex)
{
    if (mutex->number != 0)
        return;
    mutex->number = ++history->mutex_count;
    if (history->last_mutex == NULL)
        history->first_mutex = mutex;
    else
        history->last_mutex->next_line = mutex;
    history->last_mutex = mutex;
}

static void add_variable(History *history, Object *object, Object *mutex)
{
    Variable *added = take_memory(sizeof *added);

    if (added == NULL) {
        history->no_memory = true;
        return;
    }
    added->object = object;
    added->mutex = mutex;
    added->number = ++history->variable_count;
    if (object->last_variable == NULL)
        object->first_variable = added;
    else
        object->last_variable->next = added;
    object->last_variable = added;
    if (history->last_variable == NULL)
        history->first_variable = added;
    else
        history->last_variable->next_line = added;
    history->last_variable = added;
}

/* The first wait binds a variable; one with another mutex makes a new variable of it. */
static void bind_variable(History *history, Object *object, Object *mutex)
{
    if (object->last_variable == NULL || object->last_variable->mutex != mutex)
        add_variable(history, object, mutex);
}

void number_call(History *history, const Record *record)
{
    if (is_wait(record)) {
        number_mutex(history, record->mutex);
        bind_variable(history, record->object, record->mutex);
    } else if (record->what != CALL_SIGNAL && record->what != CALL_BROADCAST && record->what != CALL_SETPRIO) {
        number_mutex(history, record->object);
    }
}

static void number_thread(History *history, Thread *thread)
{
    if (!atomic_load(&thread->never_started) && !atomic_load(&thread->cancelled))
        thread->number = ++history->thread_count;
}

static void collect_thread(History *history, Thread *thread)
{
    if (thread->number != 0 && history->threads != NULL)
        history->threads[thread->number - 1] = thread;
}

static void collect_threads(History *history)
{
    history->threads = map_memory(((size_t)history->thread_count + 1) * sizeof *history->threads);
    history->no_memory |= history->threads == NULL;
    for (Thread *thread = atomic_load(&run->threads); thread != NULL; thread = thread->next)
        collect_thread(history, thread);
}

void number_all(History *history)
{
    for (uint64_t place = 1; place < history->cut; place++) {
        Record *record = history->at[place];
        if (record == NULL || !is_begin(record, place))
            continue;
        if (record->what == THREAD_ADDED)
            number_thread(history, record->named);
        else if (is_call(record) && is_written(record))
            number_call(history, record);
    }
    collect_threads(history);
}
