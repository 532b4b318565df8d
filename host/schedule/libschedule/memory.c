/* Points at accesses of memory, and races: two accesses of one place by two threads, of which one writes and one is not
   atomic, and that nothing orders. What orders is what one did before it passed something on, and another one after it
   took that: happens-before, by vector clocks (Mattern, 1989; Flanagan and Freund, FastTrack, PLDI 2009). A record of
   an access is left out once another one, which comes after it, races with whatever it would race with. */
#define _GNU_SOURCE
#include <pthread.h>
#include <stdio.h>
#include <string.h>

#include "../memory/memory.h"
#include "schedule.h"

enum { WORD = 8, PAGE = 4096, WORDS = PAGE / WORD };
enum { MOST_SAME = 8 }; /* reads of one place in a row that find one value, before another thread goes first */
enum { ALL_BYTES = 255 };

/* What happened before: of each thread the number of times that it had passed something on. */
struct Clock {
    uint32_t ticks[MOST_THREADS + 1];
};

typedef struct Access Access;
struct Access {
    Access *next;
    uint32_t thread, tick;
    uint8_t bytes; /* of the word, one bit each */
    bool writes, is_atomic;
    uintptr_t caller;
};

typedef struct {
    Access *words[WORDS];
} Page;

static Table pages, clocks; /* by the address of a page, and of what is passed on */
static Access *free_accesses;
static Clock *present[MOST_THREADS + 1], *fenced[MOST_THREADS + 1], *unfenced[MOST_THREADS + 1]; /* by thread */

/* CLOCKS */

static void *wanted_memory(size_t size)
{
    void *memory = take_memory(size);

    if (memory == NULL)
        stop(LIMIT, "memory");
    return memory;
}

static void join(Clock *into, const Clock *from)
{
    for (uint32_t number = 1; number <= thread_count; number++)
        if (from->ticks[number] > into->ticks[number])
            into->ticks[number] = from->ticks[number];
}

static Clock *clock_at(Clock **place)
{
    if (*place == NULL)
        *place = wanted_memory(sizeof **place);
    return *place;
}

static Clock *clock_of(const Thread *thread)
{
    Clock *clock = clock_at(&present[thread->number]);

    if (clock->ticks[thread->number] == 0)
        clock->ticks[thread->number] = 1;
    return clock;
}

static Clock *clock_on(const volatile void *on)
{
    Clock *clock = held_at(&clocks, (uintptr_t)on);

    if (clock != NULL)
        return clock;
    clock = wanted_memory(sizeof *clock);
    if (!hold_at(&clocks, (uintptr_t)on, clock))
        stop(LIMIT, "memory");
    return clock;
}

void pass_order(const Thread *me, const volatile void *on)
{
    if (options.memory == 0)
        return;
    join(clock_on(on), clock_of(me));
    clock_of(me)->ticks[me->number]++;
}

void take_order(const Thread *me, const volatile void *on)
{
    const Clock *clock = options.memory == 0 ? NULL : held_at(&clocks, (uintptr_t)on);

    if (clock != NULL)
        join(clock_of(me), clock);
}

/* RACES */

static void keep_name(char room[MOST_OF_NAME], const char *name, const char *otherwise)
{
    snprintf(room, MOST_OF_NAME, "%s", name == NULL ? otherwise : name);
}

static void tell_race(const Thread *me, uintptr_t at, const Access *access, const Access *other)
{
    char here[MOST_OF_NAME], place[MOST_OF_NAME], before[MOST_OF_NAME];

    keep_name(here, object_name(at), "memory of the heap or a stack");
    keep_name(place, call_name(access->caller), "?");
    keep_name(before, call_name(other->caller), "?");
    stop(RACE, "t%u %s %s at %s, and t%u %s it at %s; nothing orders the two", me->number,
         access->writes ? "writes" : "reads", here, place, other->thread, other->writes ? "wrote" : "read", before);
}

static bool is_before(const Thread *me, const Access *access)
{
    return access->thread == me->number || access->tick <= clock_of(me)->ticks[access->thread];
}

static bool clash(const Access *one, const Access *other)
{
    return (one->bytes & other->bytes) != 0 && (one->writes || other->writes) && !(one->is_atomic && other->is_atomic);
}

/* Whether whatever races with the first one races with the second one, too, if that comes after it. */
static bool is_covered(const Access *first, const Access *second)
{
    return (first->bytes & ~second->bytes) == 0 && (second->writes || !first->writes)
           && (!second->is_atomic || first->is_atomic);
}

static void remove_access(Access **place)
{
    Access *access = *place;

    *place = access->next;
    access->next = free_accesses;
    free_accesses = access;
}

/* What is known of a word, without what this access makes needless. A race is told. */
static void compare(const Thread *me, Access **word, uintptr_t at, const Access *access)
{
    while (*word != NULL) {
        const Access *other = *word;
        bool comes_before = is_before(me, other);
        if (!comes_before && options.races == 0 && clash(other, access))
            tell_race(me, at, access, other);
        if (comes_before && is_covered(other, access))
            remove_access(word);
        else
            word = &(*word)->next;
    }
}

static void keep_access(Access **word, const Access *access)
{
    Access *kept = free_accesses;

    if (kept == NULL)
        kept = wanted_memory(sizeof *kept);
    else
        free_accesses = kept->next;
    *kept = *access;
    kept->next = *word;
    *word = kept;
}

static Page *page_at(uintptr_t address)
{
    Page *page = held_at(&pages, address / PAGE * PAGE);

    if (page != NULL)
        return page;
    page = wanted_memory(sizeof *page);
    if (!hold_at(&pages, address / PAGE * PAGE, page))
        stop(LIMIT, "memory");
    return page;
}

static void note_access(const Thread *me, uintptr_t at, size_t size, Access access)
{
    access.thread = me->number;
    access.tick = clock_of(me)->ticks[me->number];
    for (uintptr_t word = at / WORD * WORD; word < at + size; word += WORD) {
        unsigned low = at > word ? (unsigned)(at - word) : 0;
        unsigned high = at + size < word + WORD ? (unsigned)(at + size - word) : WORD;
        access.bytes = (uint8_t)((ALL_BYTES >> (WORD - high + low)) << low);
        Access **place = &page_at(word)->words[word % PAGE / WORD];
        compare(me, place, word > at ? word : at, &access);
        keep_access(place, &access);
    }
}

/* Nobody may be using it: that is a write. NULL: it isn't asked whether anybody does. */
static void forget_in_page(const Thread *me, uintptr_t start, uintptr_t end, uintptr_t caller)
{
    Page *page = held_at(&pages, start / PAGE * PAGE);
    Access given_back = {.bytes = ALL_BYTES, .writes = true, .caller = caller};

    for (uintptr_t word = start / WORD * WORD; page != NULL && word < end; word += WORD) {
        Access **place = &page->words[word % PAGE / WORD];
        if (me != NULL)
            compare(me, place, word, &given_back);
        while (*place != NULL)
            remove_access(place);
    }
}

static void forget_memory(const Thread *me, uintptr_t start, size_t size, uintptr_t caller)
{
    uintptr_t end = start + size;

    for (uintptr_t at = start, next; at < end; at = next) {
        next = at / PAGE * PAGE + PAGE;
        forget_in_page(me, at, next < end ? next : end, caller);
    }
}

/* A new thread's stack may have been another one's. */
void forget_stack(const Thread *me)
{
    pthread_attr_t attributes;
    void *stack;
    size_t size;

    if (options.memory == 0 || pthread_getattr_np(me->name, &attributes) != 0)
        return;
    if (pthread_attr_getstack(&attributes, &stack, &size) == 0)
        forget_memory(NULL, (uintptr_t)stack, size, 0);
    pthread_attr_destroy(&attributes);
}

/* POINTS */

/* The thread, if this access is one of the run: none is inside of a call, as one by a signal's handler may be. */
static Thread *enter_access(void)
{
    Thread *me = options.memory == 0 || !is_on() ? NULL : this_thread();

    return me == NULL || me->in_call || me->gone || running != me ? NULL : me;
}

/* A thread that reads one place, and always finds the same, waits for another one. */
static void count_same(Thread *me, const volatile void *at, bool writes)
{
    uint8_t value = *(const volatile uint8_t *)at;
    bool is_same = !writes && me->last_read == at && me->last_value == value;

    me->same = is_same ? me->same + 1 : 0;
    me->last_read = at;
    me->last_value = value;
}

static void point_of_access(Thread *me, const char *call, const volatile void *at, bool writes, uintptr_t caller)
{
    me->in_call = true;
    me->call = call;
    me->caller = caller;
    count_same(me, at, writes);
    me->yields = me->same >= MOST_SAME;
    if (me->yields && options.strategy == PCT)
        rank_last(me);
    tell_access();
    point(me);
    me->in_call = false;
}

void pif_schedule_access(const volatile void *at, size_t size, bool writes, uintptr_t caller)
{
    Thread *me = size == 0 ? NULL : enter_access();

    if (me == NULL)
        return;
    point_of_access(me, writes ? "a write" : "a read", at, writes, caller);
    note_access(me, (uintptr_t)at, size, (Access){.writes = writes, .caller = caller});
}

void pif_schedule_atomic(const volatile void *at, bool writes, uintptr_t caller)
{
    Thread *me = enter_access();

    if (me != NULL)
        point_of_access(me, writes ? "an atomic write" : "an atomic read", at, writes, caller);
}

static bool takes(int order) { return order != __ATOMIC_RELAXED && order != __ATOMIC_RELEASE; }

static bool passes(int order) { return order >= __ATOMIC_RELEASE; }

/* A release sequence ends with a store of another thread; a change goes on with it (C11, 5.1.2.4). */
static void order_by(const Thread *me, const volatile void *at, Atomic what, int order)
{
    Clock *clock = clock_on(at);

    if (what != STORES)
        join(takes(order) ? clock_of(me) : clock_at(&unfenced[me->number]), clock);
    if (what == LOADS)
        return;
    if (what == STORES)
        memset(clock, 0, sizeof *clock);
    join(clock, passes(order) ? clock_of(me) : clock_at(&fenced[me->number]));
    clock_of(me)->ticks[me->number] += passes(order);
}

void pif_schedule_atomic_done(const volatile void *at, size_t size, Atomic what, int order, uintptr_t caller)
{
    Thread *me = enter_access();

    if (me == NULL)
        return;
    note_access(me, (uintptr_t)at, size, (Access){.writes = what != LOADS, .is_atomic = true, .caller = caller});
    order_by(me, at, what, order);
}

/* What was read before it is taken, and what is written behind it passes on what was done before it. */
void pif_schedule_fence(int order)
{
    const Thread *me = enter_access();

    if (me == NULL)
        return;
    if (takes(order))
        join(clock_of(me), clock_at(&unfenced[me->number]));
    if (passes(order)) {
        *clock_at(&fenced[me->number]) = *clock_of(me);
        clock_of(me)->ticks[me->number]++;
    }
}

void pif_schedule_forget(const volatile void *at, size_t size, uintptr_t caller)
{
    const Thread *me = enter_access();

    if (me != NULL)
        forget_memory(me, (uintptr_t)at, size, caller);
}
