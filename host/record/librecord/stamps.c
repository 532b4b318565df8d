/* Stamps and records. One counter gives the order of all: a begin takes its place before the real call is entered, an
   answer after it has returned. The clock is read after that, so that the history's time is never behind the real. */
#define _GNU_SOURCE
#include <errno.h>

#include "record.h"

/* A place that no deadline, and no difference of two times, reaches. */
enum { FAR_SECONDS = 1000000000 };
enum { BLOCK = 1024 };

uint64_t lost_place(void)
{
    uint64_t place = atomic_load(&run->lost_place);

    return place == 0 ? UINT64_MAX : place;
}

/* Takes a place; nothing before is done after it, nor anything behind before it. A locked addition is a whole fence on
   x86-64. */
static uint64_t take_place(void)
{
#ifdef __x86_64__
    return atomic_fetch_add(&run->next_place, 1) + 1;
#else
    atomic_thread_fence(memory_order_seq_cst);
    uint64_t place = atomic_fetch_add(&run->next_place, 1) + 1;
    atomic_thread_fence(memory_order_seq_cst);
    return place;
#endif
}

uint64_t now(void)
{
    struct timespec time;

    clock_gettime(CLOCK_MONOTONIC, &time);
    return (uint64_t)time.tv_sec * SECOND + (uint64_t)time.tv_nsec;
}

/* From the first record that finds no room on, nothing is recorded: the history ends before it. */
void lose(uint64_t place)
{
    uint64_t present = atomic_load(&run->lost_place);

    while ((present == 0 || place < present) && !atomic_compare_exchange_weak(&run->lost_place, &present, place))
        ;
    atomic_store(&recording, false);
}

void stop_recording(void) { lose(atomic_fetch_add(&run->next_place, 1) + 1); }

static bool make_callers(Thread *thread)
{
    uintptr_t *present = NULL, *mapped = take_of_run((size_t)thread->room * sizeof *mapped);

    if (mapped != NULL)
        atomic_compare_exchange_strong(&thread->callers, &present, mapped);
    return mapped != NULL;
}

/* The thread's room for records. A signal's handler may make it first. */
static Record *records_of(Thread *thread)
{
    Record *present = atomic_load_explicit(&thread->records, memory_order_relaxed);

    if (present != NULL)
        return present;
    if (records_where && !make_callers(thread))
        return NULL;
    Record *mapped = take_of_run((size_t)thread->room * sizeof *mapped);
    if (mapped != NULL && !atomic_compare_exchange_strong(&thread->records, &present, mapped))
        return present;
    return mapped;
}

static void note_caller(const Record *record, uintptr_t caller)
{
    if (records_where)
        atomic_load(&record->thread->callers)[record - atomic_load(&record->thread->records)] = caller;
}

/* 0: it isn't known. */
uintptr_t caller_of(const Record *record)
{
    uintptr_t *callers = atomic_load(&record->thread->callers);

    if (is_parted_run())
        return record->caller;
    return callers == NULL ? 0 : callers[record - atomic_load(&record->thread->records)];
}

/* Of a shared run: that the records are there up to behind the next block. So those of a signal's handler are, too. */
static bool are_present(const Thread *thread, uint32_t at)
{
    uint32_t blocks = at == 0 ? 2 : 1, first = at == 0 ? 0 : at + BLOCK;
    uintptr_t *callers = atomic_load(&thread->callers);

    if (!is_shared_run() || at % BLOCK != 0 || first >= thread->room)
        return true;
    uint32_t count = thread->room - first < blocks * BLOCK ? thread->room - first : blocks * BLOCK;
    return make_present(atomic_load(&thread->records) + first, count * sizeof(Record))
           && (callers == NULL || make_present(callers + first, count * sizeof *callers));
}

/* It isn't seen by who writes the history before it is stamped. */
Record *new_record(Thread *thread, What what)
{
    Record *records = records_of(thread);
    uint32_t at = thread->room;

    if (records != NULL && atomic_load_explicit(&thread->used, memory_order_relaxed) < thread->room)
        at = atomic_fetch_add_explicit(&thread->used, 1, memory_order_relaxed);
    if (at >= thread->room || !are_present(thread, at)) {
        stop_recording();
        return NULL;
    }
    Record *record = &records[at];
    record->thread = thread;
    record->what = what;
    return record;
}

/* Of a recording in parts: what was stamped is published. */
static void publish_record(const Record *record, uint64_t place, bool is_answer)
{
    publish(place, (Slot){
        .time = is_answer ? record->answer_time : record->begin_time,
        .thread = number_in_run(record->thread),
        .object = number_in_run(record->object),
        .mutex = number_in_run(record->mutex),
        .priority = record->what == CALL_SETPRIO ? (int32_t)record->priority : 0,
        .answer = record->answer,
        .what = record->what,
        .is_answer = is_answer,
        .bad_time = record->bad_time,
        .found_free = record->found_free,
    });
}

/* What few calls have stands at a place of its own. */
static void publish_detail(const Record *record)
{
    bool is_timed = record->what == CALL_TIMEDLOCK || record->what == CALL_TIMEDWAIT;

    if (is_timed || record->caller != 0)
        publish(take_place(), (Slot){
            .deadline = is_timed ? record->deadline : 0,
            .thread = number_in_run(record->thread),
            .caller = record->caller,
            .what = DETAIL,
        });
}

void stamp_begin(Record *record)
{
    if (is_parted_run())
        publish_detail(record);
    uint64_t place = take_place();

    record->begin_time = now();
    if (is_parted_run())
        publish_record(record, place, false);
    atomic_store_explicit(&record->begin_place, place, memory_order_release);
}

/* Seen by this thread alone, and by its signal handlers: it needs no order but theirs. */
static void set_in_call(Thread *thread, bool is_in)
{
    atomic_signal_fence(memory_order_seq_cst);
    atomic_store_explicit(&thread->in_call, is_in, memory_order_relaxed);
    atomic_signal_fence(memory_order_seq_cst);
}

/* A call inside of another, as of a signal's handler, or one that the library makes itself. A thread of a history has
   one call open at most, so that all calls on its objects are left out. */
static void leave_call_out(Object *object, Object *mutex)
{
    if (object == NULL)
        count(PRIORITIES_IN_CALLS);
    else
        leave_out(object, IN_CALLS);
    if (mutex != NULL)
        leave_out(mutex, IN_CALLS);
    if (object != NULL)
        pass_by(OF_CALLS_IN_CALLS);
}

/* In a recording in parts a thread has one record, of the call that is open. */
static Record *record_for_call(Thread *thread, What what)
{
    if (!is_parted_run())
        return new_record(thread, what);
    thread->present = (Record){.thread = thread, .what = (uint8_t)what};
    return &thread->present;
}

/* The record of a call on this object, and of a wait with this mutex; NULL if it isn't recorded. The thread is inside
   the call before it has the record, since a signal's handler may come between. */
static Record *new_call(What what, Object *object, Object *mutex, uintptr_t caller)
{
    Thread *thread = this_thread();

    if (thread == NULL)
        return NULL;
    if (atomic_load_explicit(&thread->in_call, memory_order_relaxed)) {
        leave_call_out(object, mutex);
        return NULL;
    }
    set_in_call(thread, true);
    take_the_file();
    Record *record = record_for_call(thread, what);
    if (record == NULL) {
        set_in_call(thread, false);
        return NULL;
    }
    record->object = object;
    record->mutex = mutex;
    if (is_parted_run())
        record->caller = records_where ? caller : 0;
    else
        note_caller(record, caller);
    return record;
}

Record *begin_call(What what, Object *object, Object *mutex, uintptr_t caller)
{
    Record *record = object == NULL ? NULL : new_call(what, object, mutex, caller);

    if (record != NULL)
        stamp_begin(record);
    return record;
}

/* On the monotonic clock. That is read before the clock of the deadline, so that the answer is never too late. */
static uint64_t monotonic_deadline(clockid_t clock, const struct timespec *deadline)
{
    int64_t start = (int64_t)now();
    struct timespec present;

    clock_gettime(clock, &present);
    int64_t seconds = 0, far = FAR_SECONDS;
    if (__builtin_sub_overflow(deadline->tv_sec, present.tv_sec, &seconds))
        seconds = deadline->tv_sec < 0 ? -far : far;
    seconds = seconds < -far ? -far : seconds > far ? far : seconds;
    int64_t time = start + seconds * SECOND + (deadline->tv_nsec - present.tv_nsec);
    return time < 0 ? 0 : (uint64_t)time;
}

Record *begin_timed(What what, Object *object, Object *mutex, clockid_t clock, const struct timespec *deadline,
                    uintptr_t caller)
{
    if (object == NULL)
        return NULL;
    bool is_good = is_time(clock, deadline);
    uint64_t time = is_good ? monotonic_deadline(clock, deadline) : 0;
    Record *record = new_call(what, object, mutex, caller);
    if (record == NULL)
        return NULL;
    record->deadline = time;
    record->bad_time = !is_good;
    stamp_begin(record);
    return record;
}

Record *begin_setprio(Thread *named, int64_t priority, uintptr_t caller)
{
    Record *record = new_call(CALL_SETPRIO, NULL, NULL, caller);

    if (record == NULL)
        return NULL;
    atomic_store(&named->is_set, true);
    record->named = named;
    record->priority = priority;
    stamp_begin(record);
    return record;
}

void answer_call(Record *record, int answer)
{
    if (record == NULL)
        return;
    uint64_t place = take_place();
    record->answer_time = now();
    record->answer = (int16_t)answer;
    if (is_parted_run())
        publish_record(record, place, true);
    atomic_store_explicit(&record->answer_place, place, memory_order_release);
    set_in_call(record->thread, false);
}

/* The thread was cancelled inside the call, and runs its cleanup handlers. */
void leave_call(void *value)
{
    Record *record = value;

    if (record == NULL)
        return;
    set_in_call(record->thread, false);
    atomic_store(&record->thread->cancelled, true);
}
