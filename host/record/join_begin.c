/* Where a history may begin in a recording in parts, and its records from there on.

   It may begin at the first place of all. Elsewhere it begins with a thread, a mutex and a variable each as they were
   added, and with lines that bring them to what stood at that place. That is sound if the real state there can be
   reached by these lines, so that what an implementation may do behind it is never judged illegal:

   - No call is open but waits, and nothing has woken these. All that began before their variable's last broadcast was
     answered have returned. Since then, or since it last had no wait, there were as many signals as waits that returned
     0. Each waiter owned its mutex once when its wait began, and no clock has reached its deadline. Then a lock of the
     mutex and the begin of the wait bring it to where it is, in the order of these begins: a second waiter owned the
     mutex only after the first one had released it.
   - Whoever owns a mutex got it by lines, is alive, and so many locks bring it there. No robust mutex is inconsistent
     or of no use, and none is left by an owner that ended.
   - The last call that gave a thread a priority overlapped no other one.
   - Who is dying or has ended owns nothing.

   What no later line names may be as it likes, and what is left out, too. */
#define _GNU_SOURCE
#include <limits.h>
#include <stdlib.h>
#include <string.h>

#include "join.h"

typedef struct {
    const Parts *parts;
    History *history;
    uint64_t begin; /* the place of the recording at which the history begins */
    uint64_t time;  /* of the first event there */
    uint64_t last;  /* so many places of the history are taken */
    Record *next, *end;
    bool has_no_room, has_call;
    const char *why; /* what stood in the way at last */
} Joining;

enum { ROOM_FOR_STANDING = 1 << 22 };

/* Of each event in its order. */
typedef void Visit(Joining *, const Event *);

static void visit_all(Joining *joining, Visit *visit)
{
    const Parts *parts = joining->parts;
    uint64_t place = (parts->first - 1) * EVENTS_OF_PART + 1;
    Event event;

    for (; part_of(place) < parts->first + parts->count && place < parts->cut; place++) {
        const Slot *slot = &slots_of(parts->heads[part_of(place) - parts->first])[(place - 1) % EVENTS_OF_PART];
        if (slot->is_there && read_slot(slot, place, &event))
            visit(joining, &event);
    }
}

static void note_use(Joining *joining, const Event *event)
{
    (void)joining;
    if (event->what == THREAD_DYING)
        event->thread->is_seen_dying = true;
    else if (event->what == THREAD_ENDED)
        event->named->is_seen_ended = true;
    else if (event->what == THREAD_ADDED)
        event->named->added_place = event->place;
    if (event->what > CALL_SETPRIO)
        return;
    event->thread->last_use = event->thread->last_call = event->place;
    if (event->what == CALL_SETPRIO) {
        event->named->last_use = event->place;
        return;
    }
    event->object->last_use = event->place;
    if (is_wait_as(event->what))
        event->mutex->last_use = event->place;
}

static bool is_kept(const Object *object) { return object->left_out == KEPT; }

/* Of the call that is open: whether it has lines. */
static bool is_open(const Thread *thread)
{
    const Event *open = &thread->standing.open;

    if (open->place == 0 || thread->cancelled)
        return false;
    return open->what == CALL_SETPRIO
           || (is_kept(open->object) && (!is_wait_as(open->what) || is_kept(open->mutex)));
}

/* Of what ended before the parts that are read there is no line, but it makes no call in them. */
static bool has_ended(const Thread *thread, uint64_t place)
{
    return thread->standing.has_ended || (thread->joined && !thread->is_seen_ended && thread->last_call < place);
}

/* Also one that has ended. */
static bool is_over(const Thread *thread, uint64_t place)
{
    bool is_last_round = thread->rounds >= PTHREAD_DESTRUCTOR_ITERATIONS && thread->last_call < place;

    return has_ended(thread, place) || thread->standing.is_dying || (is_last_round && !thread->is_seen_dying);
}

/* What stands in the way of a beginning; NULL: nothing. */
static const char *in_the_way_of_wait(const Event *open, const StandingThread *thread)
{
    const StandingObject *variable = &open->object->standing;

    if (!thread->began_as_owner)
        return "a wait with a mutex that its thread didn't own once is open";
    bool is_told = !variable->is_unsure && variable->uses == 0 && variable->woken == 0;
    if (!is_told || variable->wakes != variable->returns)
        return "it isn't known whom a signal or broadcast has woken";
    if (open->what == CALL_TIMEDWAIT && (open->bad_time || open->deadline <= time_before))
        return "a wait is open whose deadline is reached";
    return NULL;
}

static const char *in_the_way_of_thread(const Thread *thread, uint64_t place)
{
    const StandingThread *standing = &thread->standing;

    if (thread->last_use >= place && (standing->setting > 0 || standing->is_unsure))
        return "calls that give a thread a priority overlap";
    if (!is_open(thread))
        return NULL;
    if (!is_wait_as(standing->open.what))
        return "a call is open";
    return in_the_way_of_wait(&standing->open, standing);
}

static const char *in_the_way_of_mutex(const Object *object, uint64_t place)
{
    const StandingObject *standing = &object->standing;

    if (object->last_use < place || !is_kept(object))
        return NULL;
    if (standing->health != FINE)
        return standing->health == UNSURE ? "it isn't known who has a mutex"
                                          : "a robust mutex is inconsistent, or of no use any more";
    bool is_stalled = standing->owner != NULL && is_over(standing->owner, place);
    return is_stalled ? "a mutex is held by a thread that has ended" : NULL;
}

static const char *in_the_way(uint64_t place)
{
    const char *why = NULL;

    for (const Object *object = standing_objects(); why == NULL && object != NULL; object = object->next_standing)
        why = in_the_way_of_mutex(object, place);
    for (const Thread *thread = standing_threads(); why == NULL && thread != NULL; thread = thread->next_standing)
        why = in_the_way_of_thread(thread, place);
    return why;
}

/* What a cancelled thread has or is inside of is in a state that is no line's. */
static void leave_out_of_cancelled(void)
{
    for (Thread *thread = standing_threads(); thread != NULL; thread = thread->next_standing) {
        const Event *open = &thread->standing.open;
        if (!thread->cancelled || open->place == 0 || open->what == CALL_SETPRIO)
            continue;
        leave_out(open->object, WITH_CANCELLED);
        if (is_wait_as(open->what))
            leave_out(open->mutex, WITH_CANCELLED);
    }
    for (Object *object = standing_objects(); object != NULL; object = object->next_standing)
        if (object->standing.owner != NULL && object->standing.owner->cancelled)
            leave_out(object, WITH_CANCELLED);
}

static Record *new_joined(Joining *joining, What what, Thread *thread)
{
    Record *record = joining->next < joining->end ? joining->next++ : NULL;

    if (record == NULL) {
        joining->has_no_room = true;
        return NULL;
    }
    record->what = (uint8_t)what;
    record->thread = thread;
    return record;
}

static void put_begin(Joining *joining, Record *record, uint64_t time)
{
    if (record == NULL)
        return;
    joining->history->at[++joining->last] = record;
    record->begin_place = joining->last;
    record->begin_time = time;
}

static void put_answer(Joining *joining, Record *record, int answer, uint64_t time)
{
    if (record == NULL)
        return;
    joining->history->at[++joining->last] = record;
    record->answer_place = joining->last;
    record->answer_time = time;
    record->answer = (int16_t)answer;
}

static void put_thread(Joining *joining, What what, Thread *thread)
{
    Record *record = new_joined(joining, what, thread);

    if (record != NULL)
        record->named = thread;
    put_begin(joining, record, joining->time);
}

static void put_lock(Joining *joining, Thread *thread, Object *mutex)
{
    Record *record = new_joined(joining, CALL_LOCK, thread);

    if (record != NULL)
        record->object = mutex;
    put_begin(joining, record, joining->time);
    put_answer(joining, record, 0, joining->time);
}

static Record *record_of_begin(Joining *joining, const Event *event)
{
    Record *record = new_joined(joining, event->what, event->thread);

    if (record == NULL)
        return NULL;
    record->object = event->object;
    record->mutex = event->mutex;
    record->deadline = event->deadline;
    record->bad_time = event->bad_time;
    record->caller = event->caller;
    return record;
}

/* Of those that were there before: with the last priority, and as ended, if they have. */
static void put_threads(Joining *joining)
{
    uint64_t count = 0;

    for (Thread *thread = run->threads; thread != NULL; thread = thread->next)
        count++;
    Thread **in_order = map_memory((count + 1) * sizeof *in_order);
    if (in_order == NULL) {
        joining->has_no_room = true;
        return;
    }
    for (Thread *thread = run->threads; thread != NULL; thread = thread->next)
        in_order[--count] = thread;
    for (Thread **at = in_order; *at != NULL; at++) {
        Thread *thread = *at;
        bool is_there = thread->added_place < joining->begin && !thread->never_started;
        if (!is_there || (thread->last_use < joining->begin && !thread->is_needed))
            continue;
        if (thread->standing.has_priority)
            thread->priority = (int)thread->standing.priority;
        put_thread(joining, THREAD_ADDED, thread);
        if (is_over(thread, joining->begin))
            put_thread(joining, THREAD_DYING, thread);
        if (has_ended(thread, joining->begin))
            put_thread(joining, THREAD_ENDED, thread);
    }
}

static bool is_held(const Object *object, uint64_t place)
{
    return object->standing.owner != NULL && object->last_use >= place && is_kept(object);
}

static void note_needed(uint64_t place)
{
    for (Thread *thread = standing_threads(); thread != NULL; thread = thread->next_standing)
        thread->is_needed = is_open(thread);
    for (Object *object = standing_objects(); object != NULL; object = object->next_standing)
        if (is_held(object, place))
            object->standing.owner->is_needed = true;
}

static Thread *next_waiter(uint64_t behind)
{
    Thread *found = NULL;

    for (Thread *thread = standing_threads(); thread != NULL; thread = thread->next_standing)
        if (is_open(thread) && thread->standing.open.place > behind
            && (found == NULL || thread->standing.open.place < found->standing.open.place))
            found = thread;
    return found;
}

/* What the thread owns. */
static void put_owned(Joining *joining, Thread *owner)
{
    for (Object *object = standing_objects(); object != NULL; object = object->next_standing)
        for (uint32_t i = 0; i < object->standing.count && is_held(object, joining->begin); i++)
            if (object->standing.owner == owner)
                put_lock(joining, owner, object);
}

/* A waiter may own other mutexes. */
static void put_waits(Joining *joining)
{
    Thread *waiter = next_waiter(0);

    while (waiter != NULL) {
        const Event *open = &waiter->standing.open;
        put_owned(joining, waiter);
        put_lock(joining, waiter, open->mutex);
        Record *record = record_of_begin(joining, open);
        put_begin(joining, record, joining->time);
        waiter->open = record;
        waiter = next_waiter(open->place);
    }
}

/* Of those with no call open. */
static void put_owners(Joining *joining)
{
    for (Thread *thread = atomic_load(&run->threads); thread != NULL; thread = thread->next)
        if (!is_open(thread))
            put_owned(joining, thread);
}

static void put_what_stood(Joining *joining)
{
    leave_out_of_cancelled();
    note_needed(joining->begin);
    put_threads(joining);
    put_waits(joining);
    put_owners(joining);
}

static void put_call(Joining *joining, const Event *event)
{
    if (!event->is_answer) {
        event->thread->open = record_of_begin(joining, event);
        if (event->what == CALL_SETPRIO && event->thread->open != NULL)
            event->thread->open->priority = event->priority;
        put_begin(joining, event->thread->open, event->time);
        return;
    }
    if (event->thread->open == NULL)
        return;
    event->thread->open->found_free = event->found_free;
    put_answer(joining, event->thread->open, event->answer, event->time);
    event->thread->open = NULL;
}

static void put_event(Joining *joining, const Event *event)
{
    if (event->what <= CALL_SETPRIO) {
        joining->has_call = true;
        put_call(joining, event);
        return;
    }
    Record *record = new_joined(joining, event->what, event->thread);
    if (record != NULL && event->what == PROCESS_ENDS) {
        record->process = event->process;
        record->stamp = event->place;
        record->is_sure = true;
    } else if (record != NULL) {
        record->named = event->named;
    }
    put_begin(joining, record, event->time);
}

/* Up to the first place at which a history may begin; behind it the events are put into the history. */
static void find_or_put(Joining *joining, const Event *event)
{
    if (part_of(event->place) > joining->parts->last)
        return;
    if (joining->begin == 0) {
        const char *why = event->place == 1 ? NULL : in_the_way(event->place);
        if (why != NULL) {
            joining->why = why;
            pass_event(event);
            return;
        }
        joining->begin = event->place;
        joining->time = event->time;
        put_what_stood(joining);
    }
    put_event(joining, event);
}

Joined join_parts(const Parts *parts, History *history, uint64_t *begin, const char **why)
{
    Joining joining = {.parts = parts, .history = history};
    uint64_t room = 2 * parts->count * EVENTS_OF_PART + ROOM_FOR_STANDING;
    Head *head = parts->heads[0];

    history->at = map_memory(2 * room * sizeof *history->at);
    joining.next = map_memory(room * sizeof *joining.next);
    joining.end = joining.next + room;
    if (history->at == NULL || joining.next == NULL)
        return NO_MEMORY;
    read_standing();
    take_standing(standing_of(head), head->standing);
    time_before = head->time_before;
    visit_all(&joining, note_use);
    visit_all(&joining, find_or_put);
    history->cut = joining.last + 1;
    *begin = joining.begin;
    *why = joining.why;
    for (Thread *thread = run->threads; thread != NULL; thread = thread->next)
        thread->open = NULL;
    return joining.has_no_room ? NO_MEMORY : joining.why != NULL && !joining.has_call ? NO_BEGIN : JOINED;
}

static int by_size(const void *first, const void *second)
{
    uint64_t a = *(const uint64_t *)first, b = *(const uint64_t *)second;

    return a < b ? -1 : a > b;
}

static uint64_t find_times(History *history, uint64_t *times)
{
    uint64_t count = 1; /* the first is 0 */

    for (uint64_t place = 1; place < history->cut; place++) {
        const Record *record = history->at[place];
        history->start = history->start == 0 ? time_at(record, place) : history->start;
        times[count++] = microseconds_of(history, time_at(record, place));
        if (is_begin(record, place) && (record->what == CALL_TIMEDLOCK || record->what == CALL_TIMEDWAIT))
            times[count++] = microseconds_of_deadline(history, record->deadline);
    }
    return count;
}

/* The judge compares times, and does no more with them. So each may stand as its number in their order. That is done if
   they are greater than a history may have them. */
Joined number_times(History *history)
{
    uint64_t *times = map_memory(2 * (size_t)history->cut * sizeof *times), kept = 0;

    if (times == NULL)
        return NO_MEMORY;
    uint64_t count = find_times(history, times), greatest = 0;
    for (uint64_t place = 1; place < history->cut; place++) {
        uint64_t time = microseconds_of(history, time_at(history->at[place], place));
        greatest = time > greatest ? time : greatest;
    }
    if (greatest < UINT32_MAX)
        return JOINED;
    qsort(times, count, sizeof *times, by_size);
    for (uint64_t i = 0; i < count; i++)
        if (kept == 0 || times[i] != times[kept - 1])
            times[kept++] = times[i];
    history->times = times;
    history->time_count = kept;
    return JOINED;
}
