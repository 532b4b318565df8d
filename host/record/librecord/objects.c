/* Which mutex, variable or thread is at an address. */
#define _GNU_SOURCE
#include "record.h"

/* Bits of glibc's pthread_cond_t, in __data.__wrefs. */
enum { VARIABLE_SHARED = 1, VARIABLE_MONOTONIC = 2 };

Table mutexes, variables, threads;
bool is_forked;

/* If there is no memory nothing is recorded any more. */
static bool kept(bool is_kept)
{
    if (!is_kept)
        stop_recording();
    return is_kept;
}

bool hold_object(Table *table, uintptr_t address, void *held) { return kept(hold_at(table, address, held)); }

bool replace_object(Table *table, uintptr_t address, void *old, void *new)
{
    return kept(replace_at(table, address, old, new));
}

bool leave_out(Object *object, Reason reason)
{
    Reason kept = KEPT;

    if (!atomic_compare_exchange_strong(&object->left_out, &kept, reason))
        return false;
    atomic_fetch_add(&run->reasons[reason], 1);
    return true;
}

uint64_t left_out(Reason reason) { return atomic_load(&run->reasons[reason]); }

void forget_reasons(void)
{
    for (Reason reason = KEPT; reason < REASONS; reason++)
        atomic_store(&run->reasons[reason], 0);
}

/* NULL where there is no memory: then nothing is recorded any more. */
Object *new_object(Reason reason, uintptr_t address, uintptr_t first_used)
{
    Object *object = take_of_run(sizeof *object);

    if (object == NULL) {
        stop_recording();
        return NULL;
    }
    object->clock = CLOCK_REALTIME;
    object->address = address;
    object->first_used = first_used;
    object->process = the_process();
    if (reason != KEPT)
        leave_out(object, reason);
    return object;
}

/* A destroyed mutex has the kind -1. One with PTHREAD_PRIO_PROTECT is wanted so that it can be said to be left out. */
bool is_wanted(int kind) { return kind >= 0 && (!inheriting_alone || (kind & (KIND_INHERIT | KIND_PROTECT)) != 0); }

/* Whether it is still what stands at its address: another process may have made it anew, and a child has copies of what
   its parent had. */
static bool is_there(const Object *object)
{
    if (object == NULL)
        return false;
    if (object->place != NULL)
        return atomic_load_explicit(&object->place->holds, memory_order_acquire) == object;
    return object->process == present_process();
}

/* The object of all processes at a place. One that nobody has initialised who is recorded is left out. */
static Object *object_of_place(Table *table, Place *place, uintptr_t address, int kind, uintptr_t caller)
{
    Object *present = atomic_load(&place->holds);

    if (present == NULL || present->kind != kind) {
        Object *added = new_object(SHARED, address, caller);
        if (added == NULL)
            return NULL;
        added->kind = kind;
        added->place = place;
        if (atomic_compare_exchange_strong(&place->holds, &present, added))
            present = added;
    }
    return hold_object(table, address, present) ? present : NULL;
}

/* Of a mutex that a child of a fork has a copy of. */
static bool is_held(const pthread_mutex_t *mutex) { return mutex->__data.__lock != 0 || mutex->__data.__owner != 0; }

/* glibc marks robust mutexes as shared, too. No static initialiser gives either, so that such a mutex is known
   from its initialisation. One that is met first here was made by another process. */
static Reason reason_of(const pthread_mutex_t *mutex, Memory memory)
{
    int kind = mutex->__data.__kind;
    bool is_shared = (kind & (KIND_ROBUST | KIND_SHARED)) != 0;

    if ((kind & KIND_PROTECT) != 0)
        return PROTECTED;
    if (!is_shared_run())
        return is_shared ? SHARED : KEPT;
    if (is_shared && memory == UNKNOWN_MEMORY)
        return UNIDENTIFIED;
    return is_forked && is_held(mutex) ? HELD_AT_FORK : KEPT;
}

/* The memory of what may be shared, in a shared run. */
static Memory memory_of(Table *table, uintptr_t address, bool may_be_shared, Place **place)
{
    return may_be_shared && is_shared_run() ? memory_at(table, address, place) : OWN_MEMORY;
}

static Object *add_mutex(pthread_mutex_t *mutex, Object *present, uintptr_t caller)
{
    int kind = mutex->__data.__kind & KIND_COMPARED;
    uintptr_t address = (uintptr_t)mutex;
    bool may_be_shared = (kind & KIND_SHARED) != 0 && (kind & KIND_PROTECT) == 0;
    Place *place;
    Memory memory = memory_of(&mutexes, address, may_be_shared, &place);

    if (memory == SHARED_MEMORY)
        return object_of_place(&mutexes, place, address, kind, caller);
    Object *added = new_object(reason_of(mutex, memory), address, caller);
    if (added == NULL)
        return NULL;
    added->kind = kind;
    return replace_object(&mutexes, address, present, added) ? held_at(&mutexes, address) : NULL;
}

/* NULL where it is not recorded. Then the call is counted. */
Object *recorded_mutex(pthread_mutex_t *mutex, uintptr_t caller)
{
    int kind = mutex->__data.__kind;

    if (!atomic_load_explicit(&recording, memory_order_relaxed))
        return NULL;
    if (!is_wanted(kind)) {
        pass_by(OF_PLAIN_MUTEXES);
        return NULL;
    }
    Object *object = held_at(&mutexes, (uintptr_t)mutex);
    if (!is_there(object) || object->kind != (kind & KIND_COMPARED))
        object = add_mutex(mutex, object, caller);
    if (object == NULL || atomic_load_explicit(&object->left_out, memory_order_relaxed) == KEPT)
        return object;
    pass_by_left_out(atomic_load_explicit(&object->left_out, memory_order_relaxed));
    return NULL;
}

/* glibc's own marks, in __wrefs. */
bool is_shared_variable(const pthread_cond_t *variable)
{
    return is_shared_run() && (variable->__data.__wrefs & VARIABLE_SHARED) != 0;
}

static clockid_t clock_of(const pthread_cond_t *variable)
{
    return (variable->__data.__wrefs & VARIABLE_MONOTONIC) != 0 ? CLOCK_MONOTONIC : CLOCK_REALTIME;
}

/* Also one that is left out; NULL where nothing is recorded. */
Object *recorded_variable(pthread_cond_t *variable, uintptr_t caller)
{
    uintptr_t address = (uintptr_t)variable;
    Place *place;

    if (!atomic_load_explicit(&recording, memory_order_relaxed))
        return NULL;
    Object *object = held_at(&variables, address);
    if (is_there(object))
        return object;
    Memory memory = memory_of(&variables, address, is_shared_variable(variable), &place);
    if (memory == SHARED_MEMORY)
        return object_of_place(&variables, place, address, 0, caller);
    Object *added = new_object(memory == UNKNOWN_MEMORY ? UNIDENTIFIED : KEPT, address, caller);
    if (added == NULL)
        return NULL;
    added->clock = clock_of(variable);
    return replace_object(&variables, address, object, added) ? held_at(&variables, address) : NULL;
}

/* What was initialised now is a new object, for all processes if it is in memory that they share. `is_shared`: by its
   attributes. */
static void add_new(Table *table, uintptr_t address, Object wanted, bool is_shared, uintptr_t caller)
{
    Place *place = NULL;
    Memory memory = memory_of(table, address, is_shared, &place);
    Reason reason = wanted.left_out;

    if (reason == KEPT && is_shared && (memory == UNKNOWN_MEMORY || !is_shared_run()))
        reason = is_shared_run() ? UNIDENTIFIED : SHARED;
    Object *added = new_object(reason, address, caller);
    if (added == NULL)
        return;
    added->kind = wanted.kind;
    added->clock = wanted.clock;
    if (memory == SHARED_MEMORY) {
        added->place = place;
        atomic_store(&place->holds, added);
    }
    hold_object(table, address, added);
}

/* Only what can't be seen at the first use is kept here; else the object is made then. A robust mutex may be shared
   whatever its attributes say. */
static void add_initialised(pthread_mutex_t *mutex, const pthread_mutexattr_t *attributes, uintptr_t caller)
{
    int kind = mutex->__data.__kind, shared = PTHREAD_PROCESS_PRIVATE;

    if (!atomic_load(&recording) || !is_wanted(kind))
        return;
    if ((kind & (KIND_ROBUST | KIND_SHARED)) == 0) {
        forget_at(&mutexes, (uintptr_t)mutex);
        return;
    }
    if (attributes != NULL)
        pthread_mutexattr_getpshared(attributes, &shared);
    Object wanted = {.kind = kind & KIND_COMPARED, .left_out = (kind & KIND_PROTECT) != 0 ? PROTECTED : KEPT};
    bool is_shared = shared == PTHREAD_PROCESS_SHARED || (is_shared_run() && wanted.left_out == KEPT);
    add_new(&mutexes, (uintptr_t)mutex, wanted, is_shared, caller);
}

/* For all processes, too. */
static void forget_object(Table *table, uintptr_t address)
{
    Object *present = held_at(table, address);

    if (present != NULL && present->place != NULL) {
        Object *expected = present;
        atomic_compare_exchange_strong(&present->place->holds, &expected, NULL);
    }
    forget_at(table, address);
}

/* What is initialised again is a new object, also where nobody destroyed it. */
int pthread_mutex_init(pthread_mutex_t *mutex, const pthread_mutexattr_t *attributes)
{
    be_ready();
    int answer = real.mutex_init(mutex, attributes);
    if (answer == 0)
        add_initialised(mutex, attributes, CALLER);
    return answer;
}

int pthread_mutex_destroy(pthread_mutex_t *mutex)
{
    be_ready();
    int answer = real.mutex_destroy(mutex);
    if (answer == 0)
        forget_object(&mutexes, (uintptr_t)mutex);
    return answer;
}

OLD_NAME("__pthread_mutex_init", pthread_mutex_init);
OLD_NAME("__pthread_mutex_destroy", pthread_mutex_destroy);

static void add_initialised_variable(pthread_cond_t *variable, const pthread_condattr_t *attributes, uintptr_t caller)
{
    int shared = PTHREAD_PROCESS_PRIVATE;
    clockid_t clock = CLOCK_REALTIME;

    if (attributes != NULL) {
        pthread_condattr_getpshared(attributes, &shared);
        pthread_condattr_getclock(attributes, &clock);
    }
    bool is_shared = shared == PTHREAD_PROCESS_SHARED;
    if (!is_shared && clock == CLOCK_REALTIME) {
        forget_at(&variables, (uintptr_t)variable);
        return;
    }
    add_new(&variables, (uintptr_t)variable, (Object){.clock = clock}, is_shared, caller);
}

int pthread_cond_init(pthread_cond_t *variable, const pthread_condattr_t *attributes)
{
    be_ready();
    int answer = real.cond_init(variable, attributes);
    if (answer == 0 && atomic_load(&recording))
        add_initialised_variable(variable, attributes, CALLER);
    return answer;
}

int pthread_cond_destroy(pthread_cond_t *variable)
{
    be_ready();
    int answer = real.cond_destroy(variable);
    if (answer == 0)
        forget_object(&variables, (uintptr_t)variable);
    return answer;
}
