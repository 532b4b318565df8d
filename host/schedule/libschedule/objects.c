/* Which number is whose. A mutex is marked in its own memory, in the two words that glibc writes before it
   reads them. So one that is initialised again, also by a static initialiser, or copied, is seen to be another one, and
   a child of a fork goes on with it. */
#define _GNU_SOURCE
#include <stdio.h>

#include "schedule.h"

enum { MARK = 0x70696673, KINDS = 12, LENDS_NOTHING = 6, SHARED_BIT = 1 }; /* the last: of glibc's variables */

typedef struct {
    uintptr_t address, first_used;
    uint32_t kind; /* twice that of pif.h, and 1 for a robust one, and LENDS_NOTHING if it doesn't inherit */
    uint32_t next; /* in the list of those that are free */
} Mutex;

static Mutex mutexes[MOST_MUTEXES + 1];
static uint32_t free_mutexes[KINDS]; /* the first of each kind that is destroyed, and as new */
static Table mutexes_at, variables_at;
static Variable *variable_of[MOST_VARIABLES + 1];
static uint32_t bound_to[MOST_VARIABLES + 1], variable_count;

/* NAMES */

const char *bracketed(const char *name, const char *before, char *room, size_t size)
{
    if (name == NULL)
        return "";
    snprintf(room, size, " (%s%s)", before, name);
    return room;
}

static const char *name_at(uintptr_t address, uintptr_t first_used, char *room)
{
    const char *name = object_name(address);

    return name != NULL ? bracketed(name, "", room, MOST_OF_NAME)
                        : bracketed(call_name(first_used), "first used at ", room, MOST_OF_NAME);
}

const char *name_of_mutex(uint32_t number)
{
    static char room[MOST_OF_NAME];

    return name_at(mutexes[number].address, mutexes[number].first_used, room);
}

const char *name_of_variable(uint32_t number)
{
    static char room[MOST_OF_NAME];
    const Variable *variable = variable_of[number];

    return variable == NULL ? "" : name_at(variable->address, variable->first_used, room);
}

/* MUTEXES */

static uint32_t kind_of(int bits)
{
    static const uint32_t kinds[] = {PIF_NORMAL, PIF_RECURSIVE, PIF_ERRORCHECK, PIF_NORMAL}; /* the last: adaptive */

    return 2 * kinds[bits & KIND_TYPE] + ((bits & KIND_ROBUST) != 0)
           + (options.posix && (bits & KIND_INHERIT) == 0 ? LENDS_NOTHING : 0);
}

bool is_plain(uint32_t mutex) { return mutexes[mutex].kind % LENDS_NOTHING == 2 * PIF_NORMAL; }

static const char *where_it_is(const pthread_mutex_t *mutex)
{
    const char *name = object_name((uintptr_t)mutex);

    return name != NULL ? name : "on the stack or the heap";
}

/* What a core hasn't got is refused by name. */
static void refuse_others(const Thread *me, const pthread_mutex_t *mutex)
{
    int bits = mutex->__data.__kind;

    if (bits < 0 || (bits & ~KIND_COMPARED) > 1 << 10)
        misuse(me, "uses the mutex %s, which is destroyed or isn't initialised", where_it_is(mutex));
    if ((bits & KIND_PROTECT) != 0)
        stop(UNSUPPORTED, "a mutex with PTHREAD_PRIO_PROTECT: %s", where_it_is(mutex));
    if ((bits & KIND_INHERIT) == 0 && !options.inherit && !options.posix)
        stop(UNSUPPORTED, "a mutex without PTHREAD_PRIO_INHERIT: %s; --inherit takes each mutex as inheriting",
             where_it_is(mutex));
}

static uint32_t added_mutex(uint32_t kind)
{
    static const char *const names[] = {"normal", "normal robust", "recursive", "recursive robust", "errorcheck",
                                        "errorcheck robust"};
    uint32_t own = kind % LENDS_NOTHING;
    pif_number added = add_mutex(own / 2, own % 2 != 0, kind < LENDS_NOTHING);

    if (added.result != PIF_OK)
        stop(LIMIT, "more than %d mutexes", MOST_MUTEXES);
    tell_event("mutex %s%s = m%u", names[own], kind < LENDS_NOTHING ? "" : " none", added.number);
    return added.number;
}

/* A mutex that nobody holds and that is fine is as a new one. */
static void give_back(uint32_t number)
{
    Mutex *mutex = &mutexes[number];

    mutex->address = 0;
    if (!is_as_new(number))
        return;
    mutex->next = free_mutexes[mutex->kind];
    free_mutexes[mutex->kind] = number;
}

static uint32_t take_mutex(uint32_t kind)
{
    uint32_t number = free_mutexes[kind];

    if (number == 0)
        return added_mutex(kind);
    free_mutexes[kind] = mutexes[number].next;
    return number;
}

static uint32_t marked_number(const pthread_mutex_t *mutex)
{
    return (uint32_t)(uintptr_t)mutex->__data.__list.__next;
}

static void mark(pthread_mutex_t *mutex, uintptr_t word, uint32_t number)
{
    mutex->__data.__list.__prev = (void *)word;
    mutex->__data.__list.__next = (void *)(uintptr_t)number;
}

static bool is_marked(const pthread_mutex_t *mutex)
{
    uint32_t number = marked_number(mutex);

    return (uintptr_t)mutex->__data.__list.__prev == MARK && number >= 1 && number <= MOST_MUTEXES
           && mutexes[number].address == (uintptr_t)mutex;
}

uint32_t number_of_mutex(const Thread *me, pthread_mutex_t *mutex)
{
    uintptr_t address = (uintptr_t)mutex;

    if (is_marked(mutex))
        return marked_number(mutex);
    refuse_others(me, mutex);
    uintptr_t before = (uintptr_t)held_at(&mutexes_at, address);
    if (before != 0 && mutexes[before].address == address)
        give_back((uint32_t)before);
    uint32_t kind = kind_of(mutex->__data.__kind), number = take_mutex(kind);
    mutexes[number] = (Mutex){.address = address, .first_used = me->caller, .kind = kind};
    mark(mutex, MARK, number);
    if (!hold_at(&mutexes_at, address, (void *)(uintptr_t)number))
        stop(LIMIT, "memory");
    return number;
}

void forget_mutex(const Thread *me, pthread_mutex_t *mutex)
{
    if (!is_marked(mutex))
        return;
    uint32_t number = marked_number(mutex);
    pif_owned owner = owner_of(number);
    if (owner.result == PIF_OK && !threads[owner.thread].gone)
        misuse(me, "destroys m%u%s, which t%u holds", number, name_of_mutex(number), owner.thread);
    give_back(number);
    mark(mutex, 0, 0);
}

/* VARIABLES */

const Variable *variable_numbered(uint32_t number) { return variable_of[number]; }

Variable *variable_at(const Thread *me, pthread_cond_t *variable)
{
    uintptr_t address = (uintptr_t)variable;
    Variable *present = held_at(&variables_at, address);

    if ((variable->__data.__wrefs & SHARED_BIT) != 0)
        stop(UNSUPPORTED, "a condition variable that is shared between processes");
    if (present != NULL)
        return present;
    present = take_memory(sizeof *present);
    if (present == NULL || !hold_at(&variables_at, address, present))
        stop(LIMIT, "memory");
    present->address = address;
    present->first_used = me->caller;
    return present;
}

/* Whether a thread waits that wasn't woken. One that was woken may still be inside of its wait. */
bool is_waited_on(const Variable *variable)
{
    for (uint32_t i = 0; variable->waiting > 0 && i < living.count; i++) {
        pif_doing doing = doing_of(living.at[i]->number);
        if (doing.state == PIF_PARKED && doing.waits_for == variable->number)
            return true;
    }
    return false;
}

/* A number that is bound to this mutex, and that no variable has now. */
static uint32_t take_variable(uint32_t mutex)
{
    for (uint32_t number = 1; number <= variable_count; number++)
        if (variable_of[number] == NULL && bound_to[number] == mutex)
            return number;
    pif_number added = add_variable(mutex);
    if (added.result != PIF_OK)
        stop(LIMIT, "more than %d condition variables", MOST_VARIABLES);
    variable_count = added.number;
    bound_to[added.number] = mutex;
    tell_event("cond m%u = c%u", mutex, added.number);
    return added.number;
}

/* A variable on which nobody waits may be used with another mutex. A number is bound for good. */
void bind_variable(const Thread *me, Variable *variable, uint32_t mutex)
{
    if (variable->number != 0 && variable->mutex == mutex)
        return;
    if (is_waited_on(variable))
        misuse(me, "waits on c%u with m%u, and another thread waits on it with m%u", variable->number, mutex,
               variable->mutex);
    if (variable->number != 0)
        variable_of[variable->number] = NULL;
    variable->number = take_variable(mutex);
    variable->mutex = mutex;
    variable_of[variable->number] = variable;
}

void forget_variable(const Thread *me, pthread_cond_t *variable)
{
    Variable *present = held_at(&variables_at, (uintptr_t)variable);

    if (present == NULL)
        return;
    if (is_waited_on(present))
        misuse(me, "destroys c%u%s, on which a thread waits", present->number, name_of_variable(present->number));
    if (present->number != 0)
        variable_of[present->number] = NULL;
    forget_at(&variables_at, (uintptr_t)variable);
}
