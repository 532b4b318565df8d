/* The lines of the history. */
#define _GNU_SOURCE
#include "record.h"

static const char *const kinds[] = {"normal", "recursive", "errorcheck", "normal"}; /* the last: adaptive */

static const char *const calls[] = {
    [CALL_LOCK] = "lock",           [CALL_TRYLOCK] = "trylock",   [CALL_UNLOCK] = "unlock",
    [CALL_CONSISTENT] = "consistent", [CALL_TIMEDLOCK] = "timedlock", [CALL_WAIT] = "wait",
    [CALL_TIMEDWAIT] = "timedwait", [CALL_SIGNAL] = "signal",     [CALL_BROADCAST] = "broadcast",
    [CALL_SETPRIO] = "setprio",
};

void write_mutex(const Object *mutex)
{
    put_text("mutex ");
    put_text(kinds[mutex->kind & KIND_TYPE]);
    put_text((mutex->kind & KIND_ROBUST) != 0 ? " robust" : "");
    put_text((mutex->kind & KIND_INHERIT) == 0 ? " none" : "");
    end_line();
    write_name_of_object('m', mutex->number, mutex);
}

void write_variable(const Variable *variable)
{
    put_text("cond ");
    put_name('m', variable->mutex->number);
    end_line();
    write_name_of_object('c', variable->number, variable->object);
}

static void write_objects(const History *history)
{
    for (const Object *mutex = history->first_mutex; mutex != NULL; mutex = mutex->next_line)
        write_mutex(mutex);
    for (const Variable *variable = history->first_variable; variable != NULL; variable = variable->next_line)
        write_variable(variable);
}

static void write_about(const char *what, const Thread *thread)
{
    put_text(what);
    put_name('t', thread->number);
}

static const Variable *variable_of(const Object *object)
{
    return object->variable != NULL ? object->variable : object->first_variable;
}

static void write_use(const Record *record)
{
    write_about("begin ", record->thread);
    put_text(" ");
    put_text(calls[record->what]);
    put_text(" ");
    put_name('c', variable_of(record->object)->number);
    end_line();
}

static void write_answer(const Thread *thread, int answer)
{
    write_about("answer ", thread);
    put_text(" ");
    put_number((uint32_t)answer);
    end_line();
}

/* A signal that is under way when its variable is bound anew may be one of the new variable: there is one of each. */
static void bind_anew(Object *object)
{
    for (Thread *thread = atomic_load(&run->threads); thread != NULL; thread = thread->next)
        if (thread->open != NULL && is_use(thread->open->what) && thread->open->object == object)
            write_answer(thread, 0);
    object->variable = variable_of(object)->next;
    for (Thread *thread = atomic_load(&run->threads); thread != NULL; thread = thread->next)
        if (thread->open != NULL && is_use(thread->open->what) && thread->open->object == object)
            write_use(thread->open);
}

static void write_wait(const Record *record)
{
    bool is_timed = record->what == CALL_TIMEDWAIT && !record->bad_time;

    write_about("begin ", record->thread);
    put_text(is_timed ? " timedwait " : " wait ");
    put_name('c', variable_of(record->object)->number);
    put_text(" ");
    put_name('m', record->mutex->number);
}

static void write_mutex_call(const Record *record)
{
    bool is_plain = record->what == CALL_TIMEDLOCK && record->bad_time;

    write_about("begin ", record->thread);
    put_text(" ");
    put_text(calls[is_plain ? CALL_LOCK : record->what]);
    put_text(" ");
    put_name('m', record->object->number);
}

static void write_deadline(const History *history, const Record *record)
{
    if ((record->what != CALL_TIMEDLOCK && record->what != CALL_TIMEDWAIT) || record->bad_time)
        return;
    put_text(" ");
    put_number(ticks_of_deadline(history, record->deadline));
}

static void write_setprio(const Record *record)
{
    write_about("begin ", record->thread);
    write_about(" setprio ", record->named);
    put_text(" ");
    put_number((uint64_t)record->priority);
    end_line();
}

static void write_begin(const History *history, const Record *record)
{
    if (record->what == CALL_SETPRIO) {
        write_setprio(record);
        return;
    }
    if (is_use(record->what)) {
        write_use(record);
        return;
    }
    if (is_wait(record) && variable_of(record->object)->mutex != record->mutex)
        bind_anew(record->object);
    if (is_wait(record))
        write_wait(record);
    else
        write_mutex_call(record);
    write_deadline(history, record);
    end_line();
}

void write_call(History *history, Record *record, uint64_t place)
{
    if (is_begin(record, place)) {
        write_begin(history, record);
        write_caller(record);
        record->thread->open = record;
        return;
    }
    write_answer(record->thread, record->answer);
    note_holder(record);
    forget_deadline(history, record->thread);
    record->thread->open = NULL;
}

void write_added(Thread *thread)
{
    put_text("thread ");
    put_number((uint64_t)atomic_load(&thread->priority));
    end_line();
    write_name_of_thread(thread);
}

static void write_record(History *history, Record *record, uint64_t place)
{
    pass_time(history, record, place);
    if (is_call(record) && is_written(record))
        write_call(history, record, place);
    else if (record->what == THREAD_ADDED && record->named->number != 0)
        write_added(record->named);
    else if (record->what == THREAD_ENDED && record->named->ended_place == place)
        write_end(record->named);
    write_deaths(history, record, place);
}

void write_comment(const char *line)
{
    begin_comment();
    put_text(line);
    end_line();
}

void write_lines(History *history)
{
    if (history->about != NULL)
        write_comment(history->about);
    tell_passed(history, write_comment);
    write_objects(history);
    for (uint64_t place = 1; place < history->cut; place++)
        if (history->at[place] != NULL)
            write_record(history, history->at[place], place);
}
