/* What stands between two lines of a recording in parts, by the lines before alone: open calls, who has which mutex,
   the last priorities. So a part says what there was before it, and a history may begin in the middle. An owner is one
   by its answers up to the begin of the call by which it may give the mutex up. */
#define _GNU_SOURCE
#include <errno.h>

#include "record.h"

uint64_t time_before;

enum { NOWHERE, RECORDER, READER };

static uint8_t present = RECORDER;
static Thread *first_thread;
static Object *first_object;

Thread *standing_threads(void) { return first_thread; }

Object *standing_objects(void) { return first_object; }

void read_standing(void)
{
    present = READER;
    for (Thread *thread = atomic_load(&run->threads); thread != NULL; thread = thread->next)
        thread->standing = (StandingThread){.priority = 0};
}

static StandingThread *with_thread(Thread *thread)
{
    if (thread->standing_in != present) {
        thread->standing = (StandingThread){.priority = 0};
        thread->standing_in = present;
        thread->next_standing = first_thread;
        first_thread = thread;
    }
    return &thread->standing;
}

static StandingObject *with_object(Object *object)
{
    if (object->standing_in != present) {
        object->standing = (StandingObject){.owner = NULL};
        object->standing_in = present;
        object->next_standing = first_object;
        first_object = object;
    }
    return &object->standing;
}

static bool is_lock(What what) { return what == CALL_LOCK || what == CALL_TRYLOCK || what == CALL_TIMEDLOCK; }

bool is_wait_as(What what) { return what == CALL_WAIT || what == CALL_TIMEDWAIT; }

bool is_use(What what) { return what == CALL_SIGNAL || what == CALL_BROADCAST; }

/* The last time that the owner had it is over. An inconsistent one is of no use any more. */
static void free_once(StandingObject *mutex)
{
    if (mutex->count > 1) {
        mutex->count--;
        return;
    }
    mutex->owner = NULL;
    mutex->count = 0;
    if (mutex->health == INCONSISTENT)
        mutex->health = UNUSABLE;
}

static void take(StandingObject *mutex, Thread *thread, int answer)
{
    mutex->count = mutex->owner == thread ? mutex->count + 1 : 1;
    mutex->owner = thread;
    mutex->health = answer == EOWNERDEAD ? INCONSISTENT : mutex->count > 1 ? mutex->health : FINE;
}

static void begin_wait(const Event *event)
{
    StandingObject *variable = with_object(event->object), *mutex = with_object(event->mutex);
    StandingThread *thread = with_thread(event->thread);

    if (variable->waits == 0) {
        variable->wakes = variable->uses;
        variable->returns = 0;
        variable->woken = 0;
        variable->is_unsure = false;
    } else if (variable->bound != event->mutex) {
        variable->is_unsure = true;
    }
    variable->bound = event->mutex;
    variable->waits++;
    thread->began_as_owner = mutex->owner == event->thread && mutex->count == 1 && mutex->health == FINE;
    if (thread->began_as_owner)
        free_once(mutex);
    else
        mutex->health = UNSURE;
}

static void answer_wait(const Event *event, const Event *begin)
{
    StandingObject *variable = with_object(begin->object), *mutex = with_object(begin->mutex);
    bool has_it = event->answer == 0 || event->answer == ETIMEDOUT || event->answer == EOWNERDEAD;

    bool is_woken = begin->place < variable->woken_up_to;

    variable->waits -= variable->waits > 0;
    if (is_woken)
        variable->woken -= variable->woken > 0;
    else
        variable->returns += event->answer == 0;
    variable->is_unsure |= event->answer != 0 && event->answer != ETIMEDOUT;
    if (has_it && with_thread(event->thread)->began_as_owner)
        take(mutex, event->thread, event->answer);
    else
        mutex->health = event->answer == ENOTRECOVERABLE ? UNUSABLE : UNSURE;
}

static void begin_use(const Event *event)
{
    StandingObject *variable = with_object(event->object);

    variable->uses++;
    variable->wakes += event->what == CALL_SIGNAL;
}

/* A signal that was answered before a broadcast can't have woken a wait that began behind it. One that is open may. */
static void answer_use(const Event *event, const Event *begin)
{
    StandingObject *variable = with_object(begin->object);

    variable->uses -= variable->uses > 0;
    if (begin->what == CALL_SIGNAL)
        return;
    variable->woken_up_to = event->place;
    variable->woken = variable->waits;
    variable->wakes = variable->uses;
    variable->returns = 0;
}

static void begin_setting(const Event *event)
{
    StandingThread *named = with_thread(event->named);

    named->overlaps |= named->setting > 0;
    named->setting++;
}

static void answer_setting(const Event *event, const Event *begin)
{
    StandingThread *named = with_thread(begin->named);

    if (event->answer == 0) {
        named->priority = begin->priority;
        named->has_priority = true;
        named->is_unsure = named->overlaps;
    }
    named->setting -= named->setting > 0;
    named->overlaps = named->overlaps && named->setting > 0;
}

static void begin_unlock(const Event *event)
{
    StandingObject *mutex = with_object(event->object);
    bool *is_own = &with_thread(event->thread)->began_as_owner;

    *is_own = mutex->owner == event->thread;
    if (*is_own)
        free_once(mutex);
}

static void begin(const Event *event)
{
    StandingThread *thread = with_thread(event->thread);

    thread->open = *event;
    if (event->what == CALL_SETPRIO)
        begin_setting(event);
    else if (is_wait_as(event->what))
        begin_wait(event);
    else if (is_use(event->what))
        begin_use(event);
    else if (event->what == CALL_UNLOCK)
        begin_unlock(event);
}

static void answer_mutex(const Event *event, const Event *begin)
{
    StandingObject *mutex = with_object(begin->object);

    if (is_lock(begin->what) && (event->answer == 0 || event->answer == EOWNERDEAD))
        take(mutex, event->thread, event->answer);
    else if (event->answer == ENOTRECOVERABLE)
        mutex->health = UNUSABLE;
    else if (begin->what == CALL_CONSISTENT && event->answer == 0 && mutex->health == INCONSISTENT)
        mutex->health = FINE;
    else if (begin->what == CALL_UNLOCK && (event->answer == 0) != with_thread(event->thread)->began_as_owner)
        mutex->health = UNSURE;
}

static void answer(const Event *event)
{
    StandingThread *thread = with_thread(event->thread);
    const Event begun = thread->open;

    if (begun.place == 0)
        return;
    if (begun.what == CALL_SETPRIO)
        answer_setting(event, &begun);
    else if (is_wait_as(begun.what))
        answer_wait(event, &begun);
    else if (is_use(begun.what))
        answer_use(event, &begun);
    else
        answer_mutex(event, &begun);
    thread->open.place = 0;
}

void pass_event(const Event *event)
{
    if (event->time > time_before)
        time_before = event->time;
    if (event->is_answer)
        answer(event);
    else if (event->what <= CALL_SETPRIO)
        begin(event);
    else if (event->what == THREAD_DYING)
        with_thread(event->thread)->is_dying = true;
    else if (event->what == THREAD_ENDED)
        with_thread(event->named)->has_ended = true;
}

/* Else it is as it was added. Of a thread that has ended nothing is left. */
static bool is_left_of_thread(const Thread *thread)
{
    const StandingThread *standing = &thread->standing;
    bool is_over = standing->is_dying || standing->has_ended;

    return standing->open.place != 0 || standing->setting > 0 || (standing->has_priority && !is_over);
}

static bool is_left_of_object(const StandingObject *object)
{
    return object->owner != NULL || object->health != FINE || object->waits > 0 || object->uses > 0;
}

static void forget_threads(void)
{
    Thread **at = &first_thread;

    while (*at != NULL) {
        Thread *thread = *at;
        if (is_left_of_thread(thread)) {
            at = &thread->next_standing;
            continue;
        }
        *at = thread->next_standing;
        thread->standing_in = NOWHERE;
    }
}

static void forget_objects(void)
{
    Object **at = &first_object;

    while (*at != NULL) {
        Object *object = *at;
        if (is_left_of_object(&object->standing)) {
            at = &object->next_standing;
            continue;
        }
        *at = object->next_standing;
        object->standing_in = NOWHERE;
    }
}

/* Also forgets those with which nothing stands. */
uint64_t count_standing(void)
{
    uint64_t count = 0;

    forget_threads();
    forget_objects();
    for (Thread *thread = first_thread; thread != NULL; thread = thread->next_standing)
        count++;
    for (Object *object = first_object; object != NULL; object = object->next_standing)
        count++;
    return count;
}

void tell_standing(Standing *told)
{
    for (Thread *thread = first_thread; thread != NULL; thread = thread->next_standing)
        *told++ = (Standing){.thread = thread, .of_thread = thread->standing};
    for (Object *object = first_object; object != NULL; object = object->next_standing)
        *told++ = (Standing){.object = object, .of_object = object->standing};
}

/* In a process that reads a recording: nothing stands but this. */
void take_standing(const Standing *told, uint64_t count)
{
    for (uint64_t i = 0; i < count; i++)
        if (told[i].thread != NULL)
            *with_thread(told[i].thread) = told[i].of_thread;
        else
            *with_object(told[i].object) = told[i].of_object;
}
