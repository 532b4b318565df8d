/* The turn: one thread has it, and at each point it may pass to another one. */
#define _GNU_SOURCE
#include <errno.h>
#include <linux/futex.h>
#include <stdio.h>
#include <string.h>
#include <sys/syscall.h>
#include <unistd.h>

#include "schedule.h"

enum { IDLE_ROUNDS = 3 }; /* of all threads, in which each only says that it has nothing to do */

Thread *running;

static Threads can; /* at this choice */
static char line[MOST_OF_CHOICE];
static uint64_t points;
static uint64_t woken_count; /* threads that have woken by themselves */
static uint32_t idle; /* points, one behind another, at which nobody had anything to do */
static _Atomic bool is_free; /* nobody has the turn */
static pid_t ending; /* a thread that has ended, and that the kernel may still have */

static long futex(_Atomic int *word, int what, int number)
{
    return syscall(SYS_futex, word, what, number, NULL, NULL, 0);
}

/* CHOICES */

bool can_go(const Thread *thread)
{
    if (thread->caught != 0)
        return true;
    if (thread->open)
        return may_go_on(thread->number);
    return thread->can_go == NULL || thread->can_go(thread);
}

static void remove_from(Threads *some, const Thread *thread)
{
    for (uint32_t i = 0; i < some->count; i++)
        if (some->at[i] == thread) {
            some->count--;
            memmove(&some->at[i], &some->at[i + 1], (some->count - i) * sizeof *some->at);
        }
}

/* A thread in a loop that waits for another one lets the others go first, so that its loop ends. One that has ended goes
   as long as its robust mutexes have to pass on. */
static void find_those_who_can(const Thread *me)
{
    can.count = 0;
    for (uint32_t i = 0; i < living.count; i++)
        if (can_go(living.at[i]))
            can.at[can.count++] = living.at[i];
    if (me->yields && can.count > 1)
        remove_from(&can, me);
    for (uint32_t number = 1; ended_count > 0 && number <= thread_count; number++)
        if (threads[number].passes)
            can.at[can.count++] = &threads[number];
}

static char *write_number(char *at, const char *before, uint64_t number)
{
    char room[MOST_DIGITS + 1];

    return stpcpy(stpcpy(at, before), digits_of(number, 10, room));
}

static char *write_names(char *at, const char *before, const Threads *some)
{
    at = stpcpy(at, before);
    for (uint32_t i = 0; i < some->count; i++)
        at = write_number(at, " t", some->at[i]->number);
    return at;
}

/* Who may stop for good here: any thread but the first. */
static bool may_stop(void) { return stopped_count < options.ends; }

/* Threads may wake by themselves here. */
static bool may_wake(void) { return woken_count < options.spurious; }

/* Up to what is chosen. */
static char *begin_line(const Thread *me)
{
    return write_number(write_number(write_number(line, "", points), " t", me->number), ".", me->count);
}

static bool can_stop(const Thread *thread) { return thread->number > 1; }

/* Those of the living of which this is so. */
static char *write_others(char *at, const char *before, bool is_one(const Thread *))
{
    static Threads others;

    others.count = 0;
    for (uint32_t i = 0; i < living.count; i++)
        if (is_one(living.at[i]))
            others.at[others.count++] = living.at[i];
    return others.count == 0 ? at : write_names(at, before, &others);
}

/* What there is to choose from, and where the thread is that has the turn. */
static void end_line(const Thread *me, char *at)
{
    at = write_names(at, " of", &can);
    if (options.each && may_stop())
        at = write_others(at, " or end", can_stop);
    if (options.each && may_wake())
        at = write_others(at, " or wake", can_wake);
    stpcpy(stpcpy(at, " at "), me->call);
}

/* The line of this choice is told. It has to be the one that is asked. */
static void note_choice(const Choice *asked)
{
    if (asked != NULL && !options.loose && strcmp(asked->line, line) != 0)
        stop(DIVERGED, "the schedule has '%s', and this is '%s'", asked->line, line);
    tell_choice(line);
}

/* The schedule has another choice than the one that is left here, or none. */
static void expect_none(void)
{
    const char *next = next_line();

    if (next != NULL)
        stop(DIVERGED, "the schedule has '%s', and this is point %s", next, line);
    if (options.whole)
        stop(DIVERGED, "the schedule has no choice for point %s", line);
}

/* What the schedule chooses can't be done here. The line is what is known up to the choice. */
static void refuse(const Thread *me, char *at, const Choice *asked)
{
    if (options.loose)
        return;
    end_line(me, at);
    stop(DIVERGED, "the schedule has '%s', which can't be done at point %s", asked->line, line);
}

static Thread *living_thread(uint32_t number)
{
    Thread *thread = number == 0 || number > thread_count ? NULL : &threads[number];

    return thread == NULL || thread->gone ? NULL : thread;
}

/* Whether the time moves though somebody can go. */
static bool lets_time_pass(Thread *me)
{
    if (options.time == 0)
        return false;
    char *at = begin_line(me);
    const Choice *asked = asked_choice(CHOOSE_TIME, line, me);
    bool is_drawn = options.strategy != STAY && draw_below((uint32_t)options.time) == 0;
    if (asked == NULL && !is_drawn)
        return false;
    if (!move_to_deadline()) {
        if (asked != NULL)
            refuse(me, at, asked);
        return false;
    }
    end_line(me, stpcpy(at, " time"));
    note_choice(asked);
    return true;
}

/* One that is drawn: at one of so many points a thread stops. */
static Thread *drawn_to_stop(void)
{
    enum { ONE_OF = 16 };

    if (options.strategy == STAY || living.count < 2 || draw_below(ONE_OF) != 0)
        return NULL;
    Thread *thread = living.at[draw_below(living.count)];
    return thread->number == 1 ? NULL : thread;
}

static bool stops_one(Thread *me)
{
    if (!may_stop())
        return false;
    char *at = begin_line(me);
    const Choice *asked = asked_choice(CHOOSE_END, line, me);
    Thread *thread = asked == NULL ? drawn_to_stop() : living_thread(asked->thread);
    if (thread == NULL || thread->number == 1) {
        if (asked != NULL)
            refuse(me, at, asked);
        return false;
    }
    end_line(me, write_number(at, " end t", thread->number));
    note_choice(asked);
    stop_thread(thread);
    return true;
}

/* One that is drawn: at one of so many points a thread that waits on a variable wakes by itself. */
static Thread *drawn_to_wake(void)
{
    enum { ONE_OF = 16 };

    if (options.strategy == STAY || draw_below(ONE_OF) != 0)
        return NULL;
    Thread *thread = living.at[draw_below(living.count)];
    return can_wake(thread) ? thread : NULL;
}

static bool wakes_one(Thread *me)
{
    if (!may_wake() || living.count == 0)
        return false;
    char *at = begin_line(me);
    const Choice *asked = asked_choice(CHOOSE_WAKE, line, me);
    Thread *thread = asked == NULL ? drawn_to_wake() : living_thread(asked->thread);
    if (thread == NULL || !can_wake(thread)) {
        if (asked != NULL)
            refuse(me, at, asked);
        return false;
    }
    end_line(me, write_number(at, " wake t", thread->number));
    note_choice(asked);
    woken_count++;
    wake(thread);
    return true;
}

static Thread *choose_thread(Thread *me)
{
    char *at = begin_line(me);
    const Choice *asked = asked_choice(CHOOSE_THREAD, line, me);
    Thread *next = asked == NULL ? NULL : choose_named(&can, asked->thread);

    if (asked != NULL && next == NULL)
        refuse(me, at, asked);
    if (asked == NULL && can.count > 1) {
        end_line(me, at);
        expect_none();
    }
    if (next == NULL)
        next = choose_by_strategy(&can, me, points);
    end_line(me, write_number(at, " > t", next->number));
    note_choice(asked);
    return next;
}

/* Whether the schedule has a choice where there is none. A way of a call is no choice of who goes. */
static bool has_choice_here(const Thread *me)
{
    const char *next = next_line();

    if (next == NULL)
        return false;
    begin_line(me);
    size_t length = strlen(line);
    return strncmp(next, line, length) == 0 && next[length] == ' ' && strncmp(next + length, " by ", 4) != 0;
}

static void look_again(void)
{
    struct timespec pause = {0, 200000};

    syscall(SYS_nanosleep, &pause, NULL);
}

static bool asks_the_kernel(void)
{
    for (uint32_t i = 0; i < living.count; i++)
        if (living.at[i]->asks_the_kernel)
            return true;
    return false;
}

/* Nobody can go now: the time moves, or something comes from outside, or nobody ever can. */
static void help(void)
{
    if (move_to_deadline())
        return;
    if (!asks_the_kernel())
        nobody_can_go();
    look_again();
}

/* If all that can go only say that they have nothing to do, time has to pass for them. */
static void count_idle(const Thread *me)
{
    idle = me->yields ? idle + 1 : 0;
    if (idle > IDLE_ROUNDS * (living.count + 1)) {
        move_to_deadline();
        idle = 0;
    }
}

static void count_point(Thread *me)
{
    points++;
    me->count++;
    tell_points(points, false);
    if (points > options.steps)
        stop(LIVELOCK, "more than %lu points", (unsigned long)options.steps);
}

static Thread *choose_one(Thread *me)
{
    for (;;) {
        catch_up();
        find_those_who_can(me);
        if (can.count == 0)
            help();
        else if (lets_time_pass(me) || stops_one(me) || wakes_one(me))
            continue;
        else if (can.count > 1 || (options.each && (may_stop() || may_wake())) || has_choice_here(me))
            return choose_thread(me);
        else
            return can.at[0];
    }
}

/* A thread that has ended lets a robust mutex pass on, and then another one is chosen. */
static Thread *choose(Thread *me)
{
    Thread *next;

    count_point(me);
    count_idle(me);
    while ((next = choose_one(me))->gone)
        pass_on(me, next);
    return next;
}

/* WAYS OF A CALL */

static char *write_ways(char *at, const Ways *ways)
{
    at = stpcpy(at, " of");
    for (uint32_t i = 0; i < ways->count; i++)
        at = stpcpy(stpcpy(at, " "), ways->at[i].name);
    return at;
}

/* `by barge of itself barge at pthread_mutex_unlock` */
static void end_ways(const Thread *me, char *at, const char *name, const Ways *ways)
{
    at = write_ways(stpcpy(stpcpy(at, " by "), name), ways);
    stpcpy(stpcpy(at, " at "), me->call);
}

/* The place of the way that a choice names; the number of ways if it isn't there. */
static uint32_t place_of(const Ways *ways, const Choice *asked)
{
    for (uint32_t i = 0; i < ways->count; i++) {
        size_t length = strlen(ways->at[i].name);
        if (strncmp(asked->way, ways->at[i].name, length) == 0 && asked->way[length] == ' ')
            return i;
    }
    return ways->count;
}

static uint32_t way_by_strategy(const Ways *ways)
{
    return options.strategy == STAY || options.strategy == PICK ? 0 : draw_below(ways->count);
}

uint32_t choose_way(Thread *me, const Ways *ways)
{
    if (ways->count == 1)
        return 0;
    char *at = begin_line(me);
    const Choice *asked = asked_choice(CHOOSE_WAY, line, me);
    uint32_t place = asked == NULL ? ways->count : place_of(ways, asked);
    if (asked == NULL) {
        end_ways(me, at, "?", ways);
        expect_none();
    } else if (place == ways->count && !options.loose) {
        end_ways(me, at, "?", ways);
        stop(DIVERGED, "the schedule has '%s', which can't be done at point %s", asked->line, line);
    }
    if (place == ways->count)
        place = way_by_strategy(ways);
    end_ways(me, at, ways->at[place].name, ways);
    note_choice(asked);
    return place;
}

/* THE TURN */

static void give(Thread *thread)
{
    tell_points(points, true);
    running = thread;
    atomic_store(&thread->turn, 1);
    futex(&thread->turn, FUTEX_WAKE_PRIVATE, 1);
}

/* What the kernel and glibc do at the end of a thread comes before anything of the next one: so a run with the same
   choices has the same addresses. The first thread stays until the process ends. */
static void let_it_end(void)
{
    enum { LOOKS = 100, SHORT = 20000 };
    struct timespec pause = {0, SHORT};

    if (ending == 0 || ending == getpid())
        return;
    for (int looks = 0; syscall(SYS_tgkill, getpid(), ending, 0) == 0; looks++)
        if (looks >= LOOKS)
            syscall(SYS_nanosleep, &pause, NULL);
    ending = 0;
}

static void await(Thread *me)
{
    while (atomic_exchange(&me->turn, 0) == 0)
        futex(&me->turn, FUTEX_WAIT_PRIVATE, 0);
    let_it_end();
}

static void stand_still(void)
{
    static _Atomic int never;

    for (;;)
        futex(&never, FUTEX_WAIT_PRIVATE, 0);
}

static void pass_turn(Thread *me)
{
    int number = errno;
    Thread *next = choose(me);

    if (next != me)
        give(next);
    if (me->stopped)
        stand_still();
    if (next != me)
        await(me);
    run_handlers(me);
    errno = number;
}

void point(Thread *me) { pass_turn(me); }

void find_nothing(Thread *me)
{
    me->idle = me->was_idle + 1;
    if (options.strategy == PCT)
        rank_last(me);
}

void wait_in_call(Thread *me)
{
    me->open = true;
    do
        pass_turn(me);
    while (!may_go_on(me->number));
}

static void begin_wait(Thread *me, Condition *condition, const void *on, const char *how)
{
    me->can_go = condition;
    me->waits_for = on;
    me->waits_how = how;
}

static void end_wait(Thread *me)
{
    begin_wait(me, NULL, NULL, NULL);
    me->is_timed = false;
}

void wait_until(Thread *me, Condition *condition, const void *on, const char *how)
{
    begin_wait(me, condition, on, how);
    while (!condition(me))
        pass_turn(me);
    end_wait(me);
}

bool wait_or_handle(Thread *me, Condition *condition, const void *on, const char *how)
{
    uint32_t handled = me->handled;

    begin_wait(me, condition, on, how);
    while (!condition(me) && me->handled == handled)
        pass_turn(me);
    bool holds = condition(me);
    end_wait(me);
    return holds;
}

static bool has_come_back(const Thread *thread) { return thread->is_back; }

static bool take_free(Thread *me)
{
    if (!atomic_exchange(&is_free, false))
        return false;
    running = me;
    return true;
}

/* Whether the turn was given to it; waits for that a little. */
static bool is_given(Thread *me)
{
    static const struct timespec little = {0, 1000000};

    if (atomic_exchange(&me->turn, 0) != 0)
        return true;
    syscall(SYS_futex, &me->turn, FUTEX_WAIT_PRIVATE, 0, &little, NULL, 0);
    return false;
}

/* Until it comes back it can't be chosen, and nobody is told to wait for good. If nobody can go, the turn is free for the
   first that comes back. */
void leave_turn(Thread *me)
{
    me->is_back = false;
    me->asks_the_kernel = true;
    begin_wait(me, has_come_back, NULL, "is outside");
    find_those_who_can(me);
    if (can.count == 0)
        atomic_store(&is_free, true);
    else
        give(choose(me));
}

void come_back(Thread *me)
{
    me->is_back = true;
    while (!take_free(me) && !is_given(me))
        continue;
    let_it_end();
    me->asks_the_kernel = false;
    end_wait(me);
    run_handlers(me);
}

void first_turn(Thread *me) { await(me); }

/* It has left `living`, and doesn't wait for its turn again. */
void last_turn(Thread *me)
{
    Thread *next = choose(me);

    ending = gettid();
    give(next);
}
