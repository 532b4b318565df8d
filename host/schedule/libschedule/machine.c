/* Calls that the POSIX machine answers. What POSIX leaves open is a choice of the tool: how a call goes on is one of its
   ways, each a move of a thread by the machine itself or by a rule. */
#define _GNU_SOURCE
#include <stdio.h>
#include <string.h>

#include "schedule.h"

static const char *const names[] = {
    [PIF_ITSELF] = "itself",
    [PIF_STEAL] = "steal",
    [PIF_ANY_WAITER] = "any_waiter",
    [PIF_SPURIOUS] = "spurious",
    [PIF_RECURSION] = "recursion",
    [PIF_OWN_ERRORCHECK] = "own_errorcheck",
    [PIF_ANY_CONSISTENT] = "any_consistent",
    [PIF_HELD_WAIT] = "held_wait",
    [PIF_LOST_SIGNAL] = "lost_signal",
    [PIF_REVIVES] = "revives",
    [PIF_BARGE] = "barge",
    [PIF_CYCLE_WAITS] = "cycle_waits",
    [PIF_CYCLE_REFUSED] = "cycle_refused",
    [PIF_TIMEOUT_CONSUMES] = "timeout_consumes",
    [PIF_ENDS_APART] = "ends_apart",
    [PIF_STAYS_LOCKED] = "stays_locked",
    [PIF_REBINDS] = "rebinds",
    [PIF_MORE_USES] = "more_uses",
    [PIF_REFUSES_SETPRIO] = "refuses_setprio",
    [PIF_CONSISTENT_BY_ANY] = "consistent_by_any",
    [PIF_CUT_UNLOCK] = "cut_unlock",
    [PIF_OTHER_ERROR] = "other_error",
    [PIF_WAIT_GIVES_ALL] = "wait_gives_all",
};

/* What a call of the library can't be answered by: memory, or a number that is too great. */
static uint32_t number_in(pif_number number)
{
    if (number.result != PIF_OK)
        stop(LIMIT, "of the POSIX machine: %s", pif_result_name(number.result));
    return number.number;
}

static void done(uint32_t result)
{
    if (result != PIF_OK)
        stop(LIMIT, "of the POSIX machine: %s", pif_result_name(result));
}

/* How many ways a thread has by the machine itself, and how many more by a rule. */
static uint32_t moves_itself(uint32_t thread) { return number_in(pif_machine_moves(&machine, thread, PIF_ITSELF)); }

static uint32_t moves_by(uint32_t thread, uint32_t rule, uint32_t itself)
{
    return number_in(pif_machine_moves(&machine, thread, rule)) - itself;
}

static bool has_result(uint32_t thread) { return pif_machine_result(&machine, thread).result == PIF_OK; }

/* A thread that is blocked on a variable has to be woken, and one that waits for a mutex takes it by `barge` once it is
   free. One that is ready goes on. Only a wait whose time is over, and other rules, may have other moves. */
bool can_move(uint32_t thread)
{
    if (has_result(thread))
        return true;
    pif_doing doing = doing_of(thread);
    bool is_known = allowed_rule(0) == NULL && !is_due(&threads[thread]);
    if (is_known && doing.state == PIF_QUEUED)
        return owner_of(doing.waits_for).result != PIF_OK;
    if (is_known && doing.state != PIF_STOPPED)
        return doing.state == PIF_READY;
    return number_in(pif_machine_moves(&machine, thread, PIF_BARGE)) > 0;
}

/* SPURIOUS WAKE-UPS */

bool can_wake(const Thread *thread)
{
    return options.posix && thread->open && doing_of(thread->number).state == PIF_PARKED
           && moves_by(thread->number, PIF_SPURIOUS, moves_itself(thread->number)) > 0;
}

void wake(const Thread *thread)
{
    done(pif_machine_move(&machine, thread->number, PIF_SPURIOUS, moves_itself(thread->number)));
}

/* WAYS */

static Ways ways;

static void add_ways(uint32_t thread, uint32_t by, uint32_t first, uint32_t count)
{
    for (uint32_t i = 0; i < count; i++) {
        if (ways.count == MOST_WAYS)
            stop(LIMIT, "more than %d ways for a call", MOST_WAYS);
        Way *way = &ways.at[ways.count++];
        *way = (Way){.thread = thread, .by = by, .place = first + i};
        int size = ways.of == thread ? 0 : snprintf(way->name, sizeof way->name, "t%u:", thread);
        size += snprintf(way->name + size, sizeof way->name - (size_t)size, "%s", names[by]);
        if (i > 0)
            snprintf(way->name + size, sizeof way->name - (size_t)size, ".%u", i + 1);
    }
}

static void add_by(uint32_t thread, uint32_t rule, uint32_t itself)
{
    add_ways(thread, rule, itself, moves_by(thread, rule, itself));
}

/* The number of a rule, which may have bounds behind its name. */
static uint32_t rule_named(const char *word)
{
    size_t length = strcspn(word, "=");

    for (uint32_t rule = PIF_STEAL; rule < sizeof names / sizeof *names; rule++)
        if (strlen(names[rule]) == length && strncmp(names[rule], word, length) == 0)
            return rule;
    stop(UNSUPPORTED, "the rule %s", word);
}

/* Those by rules that are choices beside the tool's own. */
static void add_allowed(const Thread *me, uint32_t itself)
{
    for (size_t i = 0; allowed_rule(i) != NULL; i++)
        add_by(me->number, rule_named(allowed_rule(i)), itself);
}

static bool is_allowed(uint32_t rule)
{
    for (size_t i = 0; allowed_rule(i) != NULL; i++)
        if (rule_named(allowed_rule(i)) == rule)
            return true;
    return false;
}

static bool waits_for(const Thread *thread, uint32_t mutex)
{
    pif_doing doing = doing_of(thread->number);

    return doing.state == PIF_QUEUED && doing.waits_for == mutex;
}

/* Only a thread whose call is open waits for a mutex. */
static bool is_waited_for(uint32_t mutex)
{
    for (uint32_t i = 0; i < living.count; i++)
        if (living.at[i]->open && waits_for(living.at[i], mutex))
            return true;
    return false;
}

/* Whether it waits for a mutex, and its time isn't over. */
static bool is_queued(const Thread *me) { return doing_of(me->number).state == PIF_QUEUED && !is_due(me); }

/* How many ways the machine itself has: one for an unlock, and none for a thread that waits. */
static uint32_t ways_itself(const Thread *me, const pif_request *asked)
{
    if (asked->call == PIF_UNLOCK)
        return 1;
    return is_queued(me) ? 0 : moves_itself(me->number);
}

/* How many more `barge` has. An unlock of the last hold may leave a mutex free, unless it is inconsistent, and a thread
   that waits may take a mutex that is free. */
static uint32_t ways_by_barge(const Thread *me, const pif_request *asked, uint32_t itself)
{
    pif_owned owner = owner_of(asked->mutex);

    if (asked->call == PIF_UNLOCK)
        return owner.thread == me->number && owner.count == 1
               && pif_machine_health(&machine, asked->mutex).number != PIF_INCONSISTENT;
    return is_queued(me) ? owner.result != PIF_OK : moves_by(me->number, PIF_BARGE, itself);
}

/* A mutex that nobody waits for is left free in one way alone. */
static bool may_barge(const pif_request *asked, uint32_t itself)
{
    return itself == 0 || (asked->mutex != 0 && is_waited_for(asked->mutex));
}

/* Threads whose wait is due, and that may run out of time and take this signal with them. */
static void add_consumers(const Thread *me)
{
    for (uint32_t i = 0; i < living.count; i++) {
        const Thread *other = living.at[i];
        if (other != me && other->open && other->is_timed && is_due(other))
            add_by(other->number, PIF_TIMEOUT_CONSUMES, moves_itself(other->number));
    }
}

/* A signal that has used its variable may wake any of those that are blocked, among them each that the machine itself may
   wake. */
static void find_whom_to_wake(const Thread *me, uint32_t itself)
{
    add_by(me->number, PIF_ANY_WAITER, itself);
    if (ways.count == 0)
        add_ways(me->number, PIF_ITSELF, 0, itself);
    add_consumers(me);
    add_allowed(me, itself);
}

static bool may_close_cycle(const Thread *me, const pif_request *asked)
{
    return asked->mutex != 0 && owner_of(asked->mutex).thread != me->number && closes_cycle(me, asked->mutex);
}

/* A lock that closes a cycle waits. That may be told of in place of it to who asks for errors, if its mutex checks them. */
static void find_ways(const Thread *me, const pif_request *asked, uint32_t steps)
{
    uint32_t itself = ways_itself(me, asked);

    ways.of = me->number;
    ways.count = 0;
    if (asked->call == PIF_SIGNAL && steps == 1) {
        find_whom_to_wake(me, itself);
        return;
    }
    if (may_close_cycle(me, asked))
        add_by(me->number, PIF_CYCLE_WAITS, itself);
    if (ways.count == 0 || (options.errors && !is_plain(asked->mutex)))
        add_ways(me->number, PIF_ITSELF, 0, itself);
    if (may_barge(asked, itself))
        add_ways(me->number, PIF_BARGE, itself, ways_by_barge(me, asked, itself));
    add_allowed(me, itself);
}

/* CALLS */

/* What POSIX leaves undefined. */
static void judge_use(const Thread *me, const pif_request *asked)
{
    const char *name = name_of_mutex(asked->mutex);

    if (pif_machine_undefined(&machine, me->number).number == 0)
        return;
    if (asked->call == PIF_SETPRIO)
        misuse(me, "sets the priority of t%u, which has ended", asked->thread);
    if (asked->call == PIF_UNLOCK)
        misuse(me, "unlocks m%u%s, which it doesn't hold", asked->mutex, name);
    if (owner_of(asked->mutex).thread != me->number)
        misuse(me, "waits with m%u%s, which it doesn't hold", asked->mutex, name);
    misuse(me, "waits with m%u%s, and another thread waits with another mutex", asked->mutex, name);
}

/* Nobody can undo a cycle that has no deadline, and a thread that locks its own mutex waits for good. */
static void judge_wait(Thread *me)
{
    pif_doing doing = doing_of(me->number);
    bool is_closed = doing.state == PIF_QUEUED && closes_cycle(me, doing.waits_for)
                     && !has_deadline(doing.waits_for, me);

    if (!me->is_timed && (is_closed || doing.state == PIF_STOPPED))
        tell_deadlock(me);
}

/* No rule has a way here, and the machine itself has one at most: only who signals or broadcasts may have several. So the
   ways needn't be counted. A call's first move gives no mutex up, unless it is an unlock. */
static bool has_no_choice(const Thread *me, const pif_request *asked, uint32_t steps)
{
    if (allowed_rule(0) != NULL || asked->call == PIF_SIGNAL || asked->call == PIF_BROADCAST || is_queued(me))
        return false;
    if (asked->mutex == 0)
        return true;
    bool gives_up = steps > 0 || asked->call == PIF_UNLOCK;
    return !(gives_up && is_waited_for(asked->mutex)) && !may_close_cycle(me, asked);
}

/* Whether a thread has moved that has no choice. */
static bool has_moved(const Thread *me, const pif_request *asked, uint32_t steps)
{
    if (!has_no_choice(me, asked, steps))
        return false;
    uint32_t result = pif_machine_move(&machine, me->number, PIF_ITSELF, 0);
    if (result != PIF_NONE)
        done(result);
    return result == PIF_OK;
}

static void go_on(Thread *me, const pif_request *asked, uint32_t steps)
{
    if (has_moved(me, asked, steps))
        return;
    find_ways(me, asked, steps);
    if (ways.count > 0) {
        const Way *way = &ways.at[choose_way(me, &ways)];
        done(pif_machine_move(&machine, way->thread, way->by, way->place));
        return;
    }
    me->open = true;
    me->wants = doing_of(me->number).state == PIF_STOPPED ? asked->mutex : 0;
    judge_wait(me);
    wait_in_call(me);
    me->wants = 0;
}

/* By `other_error` a call that failed may be answered another error that holds of it, too. */
static void choose_error(Thread *me)
{
    if (!is_allowed(PIF_OTHER_ERROR))
        return;
    ways.of = me->number;
    ways.count = 0;
    add_ways(me->number, PIF_ITSELF, 0, 1);
    add_by(me->number, PIF_OTHER_ERROR, moves_itself(me->number));
    const Way *way = &ways.at[choose_way(me, &ways)];
    if (way->by == PIF_OTHER_ERROR)
        done(pif_machine_move(&machine, way->thread, way->by, way->place));
}

/* A wait that gave up all holds of its mutex takes them again before it is answered. */
static uint32_t answer_of(const Thread *me)
{
    pif_number answer;

    while ((answer = pif_machine_answer(&machine, me->number)).result == PIF_NONE)
        done(pif_machine_move(&machine, me->number, PIF_WAIT_GIVES_ALL, 0));
    return number_in(answer);
}

/* A whole call. While it waits other threads go. */
int ask_machine(Thread *me, pif_request request)
{
    uint32_t result = pif_machine_begin(&machine, me->number, request);

    if (result != PIF_OK)
        stop(UNSUPPORTED, "%s: the POSIX machine answers %s", me->call, pif_result_name(result));
    tell_begin(me, &request);
    judge_use(me, &request);
    for (uint32_t steps = 0; !has_result(me->number); steps++)
        go_on(me, &request, steps);
    choose_error(me);
    uint32_t answer = answer_of(me);
    tell_event("answer t%u %u", me->number, answer);
    return (int)answer;
}

/* ENDS: a thread leaves all that it waits for, and its robust mutexes pass on later, one by one */

static void look_for_more(Thread *thread)
{
    thread->passes = number_in(pif_machine_ends_apart(&machine, thread->number)) > 0;
    if (!thread->passes)
        tell_event("end t%u", thread->number);
}

void end_on_machine(Thread *thread)
{
    done(pif_machine_end_apart(&machine, thread->number, 0));
    tell_event("dying t%u", thread->number);
    look_for_more(thread);
}

/* One of its robust mutexes passes on, in one of the ways that there are. */
void pass_on(Thread *me, Thread *thread)
{
    uint32_t count = number_in(pif_machine_ends_apart(&machine, thread->number));

    ways.of = thread->number;
    ways.count = 0;
    add_ways(thread->number, PIF_ITSELF, 0, count);
    done(pif_machine_end_apart(&machine, thread->number, ways.at[choose_way(me, &ways)].place));
    look_for_more(thread);
}
