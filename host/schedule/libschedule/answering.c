/* What answers the program's calls: a core, or the POSIX machine, whose choices are the tool's. What either shows is read
   here. */
#define _GNU_SOURCE
#include <string.h>

#include "schedule.h"

enum { SIGNALS = UINT32_MAX };

static pif_core core;

pif_machine machine;

/* Each run's is a copy of the one that is made here. */
bool make_core(void)
{
    return pif_core_new(&core, MOST_THREADS, MOST_MUTEXES, MOST_VARIABLES, SIGNALS) == PIF_OK;
}

static bool allows(const char *rule)
{
    return pif_machine_allow(&machine, (const uint8_t *)rule, strlen(rule)) == PIF_OK;
}

/* A run on the machine makes its own, with the rules that are choices. */
bool make_machine(void)
{
    static const char *const rules[] = {CHOSEN_RULES};

    if (pif_machine_new(&machine, MOST_THREADS, MOST_MUTEXES, MOST_VARIABLES, SIGNALS) != PIF_OK)
        return false;
    for (size_t i = 0; i < sizeof rules / sizeof *rules; i++)
        if (!allows(rules[i]))
            return false;
    for (size_t i = 0; allowed_rule(i) != NULL; i++)
        if (!allows(allowed_rule(i)))
            return false;
    return true;
}

/* ADDITIONS */

pif_number add_thread(uint32_t priority)
{
    return options.posix ? pif_machine_add_thread(&machine, priority) : pif_add_thread(&core, priority);
}

pif_number add_mutex(uint32_t kind, bool is_robust, bool inherits)
{
    return options.posix ? pif_machine_add_mutex(&machine, kind, is_robust, inherits)
                         : pif_add_mutex(&core, kind, is_robust);
}

pif_number add_variable(uint32_t mutex)
{
    return options.posix ? pif_machine_add_cond(&machine, mutex) : pif_add_cond(&core, mutex);
}

/* WHAT IT SHOWS */

pif_doing doing_of(uint32_t thread)
{
    return options.posix ? pif_machine_status(&machine, thread) : pif_status(&core, thread);
}

pif_owned owner_of(uint32_t mutex)
{
    return options.posix ? pif_machine_owner(&machine, mutex) : pif_owner(&core, mutex);
}

/* Whether a mutex is as a new one: nobody holds it, and it is fine. */
bool is_as_new(uint32_t mutex)
{
    pif_number health = options.posix ? pif_machine_health(&machine, mutex) : pif_health(&core, mutex);

    return owner_of(mutex).result != PIF_OK && health.number == PIF_FINE;
}

uint32_t priority_of(uint32_t thread)
{
    return options.posix ? pif_machine_effective(&machine, thread).number : pif_effective(&core, thread).number;
}

/* The thread that SCHED_FIFO runs next, if that is known. */
pif_number picked(void)
{
    return options.posix ? (pif_number){PIF_NONE, 0} : pif_pick(&core);
}

/* Whether a thread's open call can go on. */
bool may_go_on(uint32_t thread)
{
    return options.posix ? can_move(thread) : pif_waiting(&core, thread).number == 0;
}

/* WHAT HAPPENS */

void set_time(uint32_t time)
{
    if (options.posix && pif_machine_tick(&machine, time) != PIF_OK)
        stop(LIMIT, "memory");
    if (!options.posix)
        pif_tick(&core, time);
    tell_event("tick %u = ticked", time);
}

void end_of_thread(Thread *thread)
{
    if (options.posix) {
        end_on_machine(thread);
        return;
    }
    pif_end(&core, thread->number);
    tell_event("end t%u = ended", thread->number);
}

int ask(Thread *me, pif_request request)
{
    if (me->is_inside)
        stop(UNSUPPORTED, "%s by a signal's handler, whose thread waits for a mutex or on a variable", me->call);
    int answer = options.posix ? ask_machine(me, request) : ask_core(me, &core, request);
    me->open = false;
    me->is_timed = false;
    return answer;
}

int ask_for_lock(Thread *me, pif_request request)
{
    return options.posix ? ask(me, request) : ask_core_for_lock(me, request);
}

/* WAITING IN CYCLES */

/* Whether a deadline may yet undo a cycle: a thread in the chain from this mutex to this thread waits with one. */
bool has_deadline(uint32_t mutex, const Thread *me)
{
    for (uint32_t i = 0; i < MOST_THREADS; i++) {
        pif_owned owner = owner_of(mutex);
        if (owner.result != PIF_OK || owner.thread == me->number)
            return false;
        if (threads[owner.thread].is_timed)
            return true;
        pif_doing doing = doing_of(owner.thread);
        if (doing.state != PIF_QUEUED)
            return false;
        mutex = doing.waits_for;
    }
    return false;
}

/* Whether the chain from a mutex that a thread wants comes back to it. */
bool closes_cycle(const Thread *me, uint32_t mutex)
{
    pif_owned owner = owner_of(mutex);

    for (uint32_t i = 0; i < MOST_THREADS && owner.result == PIF_OK && owner.thread != me->number; i++) {
        pif_doing doing = doing_of(owner.thread);
        if (doing.state != PIF_QUEUED)
            return false;
        owner = owner_of(doing.waits_for);
    }
    return owner.result == PIF_OK && owner.thread == me->number;
}
