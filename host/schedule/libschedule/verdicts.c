/* Why a run ends here: each thread is told with what it waits for, and who holds that. */
#define _GNU_SOURCE
#include <stdarg.h>
#include <stdio.h>
#include <string.h>

#include "schedule.h"

/* The files that are mapped are read when the first name is asked, since few runs ask one. */
static void be_able_to_name(void)
{
    static bool is_read;

    if (!is_read)
        read_maps();
    is_read = true;
}

const char *object_name(uintptr_t address)
{
    be_able_to_name();
    return name_of_object(address);
}

const char *call_name(uintptr_t returns_to)
{
    be_able_to_name();
    return name_of_call(returns_to);
}

/* The mutex for which a thread waits, in its call or outside of it; 0: none. */
static uint32_t mutex_of(const Thread *thread)
{
    pif_doing doing = doing_of(thread->number);

    if (thread->wants != 0)
        return thread->wants;
    return thread->open && doing.state == PIF_QUEUED ? doing.waits_for : 0;
}

static bool is_parked(const Thread *thread)
{
    return thread->open && doing_of(thread->number).state == PIF_PARKED;
}

/* The owner of the mutex for which a thread waits; NULL: there is none. */
static const Thread *next_in_chain(const Thread *thread)
{
    uint32_t mutex = mutex_of(thread);
    pif_owned owner = owner_of(mutex);

    return mutex == 0 || owner.result != PIF_OK ? NULL : &threads[owner.thread];
}

static pif_standing standings[MOST_THREADS];
static pif_link links[MOST_THREADS];

/* What the living threads do here, as libpif takes it. How many they are. */
static uint32_t name_standings(void)
{
    for (uint32_t i = 0; i < living.count; i++) {
        const Thread *thread = living.at[i], *owner = next_in_chain(thread);
        uint32_t mutex = mutex_of(thread);
        standings[i] = (pif_standing){.thread = thread->number,
                                      .mutex = mutex,
                                      .owner = owner == NULL ? 0 : owner->number,
                                      .goes = can_go(thread),
                                      .is_timed = waits_for_time(thread),
                                      .is_outside = thread->asks_the_kernel,
                                      .wants_lock = mutex != 0 || thread->wants_lock};
    }
    return living.count;
}

/* Finds the chain from this thread. How many links it has. */
static size_t find_chain(const Thread *first)
{
    return pif_choose_chain(standings, name_standings(), first->number, links, MOST_THREADS);
}

/* Whether the chain from this thread comes back to it. */
static bool is_in_cycle(const Thread *thread)
{
    size_t count = find_chain(thread);

    return count > 0 && links[count - 1].owner == thread->number;
}

/* `chain: t2 -> m2 -> t3 -> m1 -> t2` */
static void tell_chain(const Thread *first)
{
    static char line[MOST_OF_CHOICE];
    size_t size = (size_t)snprintf(line, sizeof line, "chain: t%u", first->number), count = find_chain(first);

    for (size_t i = 0; i < count && size < sizeof line - MOST_OF_NAME; i++)
        size += (size_t)snprintf(line + size, sizeof line - size, " -> m%u -> t%u", links[i].mutex, links[i].owner);
    tell_reason("  %s", line);
}

static const char *became(const Thread *thread)
{
    return thread->stopped ? ", and has stopped for good" : thread->gone ? ", and has ended" : "";
}

static void write_mutex(const Thread *thread, char *text, size_t size)
{
    uint32_t mutex = mutex_of(thread);
    const Thread *owner = next_in_chain(thread);

    if (owner == NULL)
        snprintf(text, size, "waits for m%u%s, which nobody holds", mutex, name_of_mutex(mutex));
    else if (owner == thread)
        snprintf(text, size, "waits for m%u%s, which it holds itself", mutex, name_of_mutex(mutex));
    else
        snprintf(text, size, "waits for m%u%s, which t%u holds%s", mutex, name_of_mutex(mutex), owner->number,
                 became(owner));
}

static void write_variable(const Thread *thread, char *text, size_t size)
{
    uint32_t number = doing_of(thread->number).waits_for;
    const Variable *variable = variable_numbered(number);
    uint32_t lost = variable == NULL ? 0 : variable->for_nobody;

    if (lost == 0)
        snprintf(text, size, "waits on c%u%s", number, name_of_variable(number));
    else
        snprintf(text, size, "waits on c%u%s, which was signalled %u time%s when nobody waited", number,
                 name_of_variable(number), lost, lost == 1 ? "" : "s");
}

static void write_outside(const Thread *thread, char *text, size_t size)
{
    char room[MOST_OF_NAME];
    uintptr_t on = (uintptr_t)thread->waits_for;
    const Thread *other = thread->waits_for;

    if (other > threads && other <= &threads[MOST_THREADS])
        snprintf(text, size, "%s t%u", thread->waits_how, other->number);
    else
        snprintf(text, size, "%s%s", thread->waits_how,
                 bracketed(on == 0 ? NULL : object_name(on), "", room, sizeof room));
}

static void write_doing(const Thread *thread, char *text, size_t size)
{
    if (thread->stopped)
        snprintf(text, size, "has stopped for good, as --ends allows");
    else if (mutex_of(thread) != 0)
        write_mutex(thread, text, size);
    else if (is_parked(thread))
        write_variable(thread, text, size);
    else if (thread->can_go != NULL)
        write_outside(thread, text, size);
    else
        snprintf(text, size, "can go");
}

static void tell_thread(const Thread *thread)
{
    char doing[3 * MOST_OF_NAME], name[MOST_OF_NAME], place[MOST_OF_NAME] = "";
    const char *runs = thread->start == NULL ? NULL : object_name((uintptr_t)thread->start);
    const char *at = thread->call == NULL || thread->stopped ? NULL : call_name(thread->caller);

    write_doing(thread, doing, sizeof doing);
    if (at != NULL)
        snprintf(place, sizeof place, "; %s, called at %s", thread->call, at);
    tell_reason("  t%u%s %s%s", thread->number, bracketed(runs, "", name, sizeof name), doing, place);
}

static void tell_threads(void)
{
    for (uint32_t number = 1; number <= thread_count; number++)
        if (!threads[number].gone || threads[number].stopped)
            tell_thread(&threads[number]);
}

void stop(Verdict verdict, const char *format, ...)
{
    static char reason[MOST_OF_CHOICE]; /* the stack of a thread may be small */
    va_list list;

    va_start(list, format);
    vsnprintf(reason, sizeof reason, format, list);
    va_end(list);
    tell_verdict(verdict, reason);
    end_run();
}

void misuse(const Thread *me, const char *format, ...)
{
    static char reason[MOST_OF_REASON];
    va_list list;

    va_start(list, format);
    vsnprintf(reason, sizeof reason, format, list);
    va_end(list);
    const char *at = call_name(me->caller);
    stop(MISUSE, "t%u %s; %s%s%s", me->number, reason, me->call, at == NULL ? "" : ", called at ",
         at == NULL ? "" : at);
}

void tell_deadlock(Thread *me)
{
    tell_verdict(DEADLOCK, is_in_cycle(me) ? "a cycle" : "a thread waits for good");
    tell_chain(me);
    tell_threads();
    end_run();
}

/* A lock that is waited for in vain makes it a deadlock; else a variable, and whether it had a signal. */
void nobody_can_go(void)
{
    const Thread *queued = NULL;
    bool is_lost = false, is_deadlock = pif_choose_is_deadlock(standings, name_standings()) == 1;

    for (uint32_t i = 0; i < living.count; i++) {
        const Thread *thread = living.at[i];
        if (queued == NULL && mutex_of(thread) != 0)
            queued = thread;
        if (is_parked(thread)) {
            const Variable *variable = variable_numbered(doing_of(thread->number).waits_for);
            is_lost = is_lost || (variable != NULL && variable->for_nobody > 0);
        }
    }
    tell_verdict(is_deadlock ? DEADLOCK : is_lost ? LOST_WAKE_UP : STUCK, "no thread can go");
    if (queued != NULL)
        tell_chain(queued);
    tell_threads();
    end_run();
}
