/* Calls that the recorder can't have seen: a thread is answered that it got a mutex which it owns by all that was seen.
   glibc lets it wait for good, or answers an error. Or another thread owns the mutex by all that was seen, and yet it
   was found free. So the owner gave it up by a call that was missed, or the mutex was made anew. What is said of owners
   is never more than that: a mutex has none here if anybody may give it up. */
#define _GNU_SOURCE
#include <errno.h>

#include "record.h"

enum { KIND_IS_RECURSIVE = 1 };

static Object *mutex_of(const Record *record) { return is_wait(record) ? record->mutex : record->object; }

static bool is_lock(const Record *record)
{
    return record->what == CALL_LOCK || record->what == CALL_TRYLOCK || record->what == CALL_TIMEDLOCK;
}

/* An unlock or a wait by a thread that isn't known to own the mutex may take it from any thread until it returns. */
static void begin_giving_up(Record *record)
{
    Object *mutex = mutex_of(record);

    record->takes_from_others = mutex->owner != record->thread;
    mutex->takers += record->takes_from_others;
    mutex->owner = NULL;
}

static void answer_giving_up(const Record *record)
{
    mutex_of(record)->takers -= record->takes_from_others;
}

static void get(Object *mutex, const Record *record, uint64_t place)
{
    mutex->owner = mutex->takers == 0 ? record->thread : NULL;
    mutex->owned_since = place;
}

static bool has_it(const Record *record)
{
    return record->answer == 0 || record->answer == EOWNERDEAD || (is_wait(record) && record->answer == ETIMEDOUT);
}

/* Whether the thread owned the mutex already. */
static bool is_second(const Object *mutex, const Record *record)
{
    return mutex->owner == record->thread && (mutex->kind & KIND_TYPE) != KIND_IS_RECURSIVE;
}

/* Whether another thread owned the mutex from the begin to the answer, and it was found free between them. */
static bool was_lost(const Object *mutex, const Record *record)
{
    return record->found_free && mutex->owner != NULL && mutex->owner != record->thread
           && mutex->owned_since < record->begin_place;
}

static void note_lock(History *history, const Record *record, uint64_t place)
{
    history->missed += is_second(record->object, record);
    history->found_free += was_lost(record->object, record);
    get(record->object, record, place);
}

void note_missed(History *history, Record *record, uint64_t place)
{
    bool gives_up = record->what == CALL_UNLOCK || is_wait(record);

    if (is_begin(record, place)) {
        if (gives_up)
            begin_giving_up(record);
        return;
    }
    if (gives_up)
        answer_giving_up(record);
    if (is_wait(record) && has_it(record))
        get(record->mutex, record, place);
    if (is_lock(record) && has_it(record))
        note_lock(history, record, place);
}

void count_missed(History *history)
{
    for (uint64_t place = 1; place < history->cut; place++) {
        Record *record = history->at[place];
        if (record != NULL && is_call(record) && is_written(record))
            note_missed(history, record, place);
    }
}
