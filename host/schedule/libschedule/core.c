/* Calls that the core answers. */
#define _GNU_SOURCE
#include <errno.h>

#include "schedule.h"

/* What the library can't have asked. */
static void refuse(const Thread *me, pif_seen seen)
{
    stop(UNSUPPORTED, "%s: the core answers %u, %u", me->call, seen.what, seen.detail);
}

/* A whole call. While it waits other threads go. */
int ask_core(Thread *me, pif_core *core, pif_request request)
{
    pif_seen seen = pif_call(core, me->number, request);

    tell_call(me, "call", &request, seen);
    while (seen.what == PIF_WAITS) {
        if (doing_of(me->number).state == PIF_STOPPED)
            me->wants = request.mutex;
        if (me->wants != 0 && !me->is_timed)
            tell_deadlock(me);
        wait_in_call(me);
        me->wants = 0;
        seen = pif_finish(core, me->number);
        tell_call(me, "finish", NULL, seen);
    }
    if (seen.what != PIF_ANSWERED)
        refuse(me, seen);
    return (int)seen.detail;
}

/* There is no cycle any more, or no deadline that could undo it, or its own deadline is there. */
static bool is_undone(const Thread *me)
{
    return is_due(me) || !closes_cycle(me, me->wants) || (!me->is_timed && !has_deadline(me->wants, me));
}

/* A lock that would close a cycle is answered EDEADLK by the core, and glibc's waits. If no deadline can undo it that
   is a deadlock. */
int ask_core_for_lock(Thread *me, pif_request request)
{
    bool is_timed = me->is_timed;

    for (;;) {
        int answer = ask(me, request);
        if (answer != EDEADLK || owner_of(request.mutex).thread == me->number)
            return answer;
        me->wants = request.mutex;
        if (!is_timed && !has_deadline(request.mutex, me))
            tell_deadlock(me);
        me->is_timed = is_timed;
        me->deadline = request.deadline;
        wait_until(me, is_undone, NULL, "waits in a cycle for");
        me->wants = 0;
        if (is_timed && request.deadline <= microseconds())
            return ETIMEDOUT;
    }
}
