/* The run's time, in place of the machine's clocks. It moves if nobody can go, and a little at each look, so that loops
   on a clock end. */
#define _GNU_SOURCE
#include <errno.h>
#include <sys/syscall.h>
#include <sys/time.h>
#include <threads.h>
#include <unistd.h>

#include "schedule.h"

enum { NANOSECONDS = 1000, MICROSECONDS = 1000000, FIRST_MONOTONIC = 1000, LAST_SECOND = 4294 };

static const int64_t first_real = 1700000000; /* November 2023: a date that programs believe */

static uint64_t nanoseconds; /* since the program's start */
static uint32_t core_time;

static bool is_of_real_time(clockid_t clock)
{
    return clock == CLOCK_REALTIME || clock == CLOCK_REALTIME_COARSE || clock == CLOCK_TAI;
}

static bool is_of_the_run(clockid_t clock)
{
    return is_of_real_time(clock) || clock == CLOCK_MONOTONIC || clock == CLOCK_MONOTONIC_COARSE
           || clock == CLOCK_MONOTONIC_RAW || clock == CLOCK_BOOTTIME;
}

static int64_t first_second(clockid_t clock) { return is_of_real_time(clock) ? first_real : FIRST_MONOTONIC; }

/* The time of a thread that sleeps longer than the core can count: it never comes. */
static uint32_t bounded(uint64_t time) { return time > UINT32_MAX ? UINT32_MAX : (uint32_t)time; }

uint32_t microseconds(void) { return bounded(nanoseconds / NANOSECONDS); }

static void move_to(uint32_t time)
{
    if (time <= core_time)
        return;
    if (time == UINT32_MAX)
        stop(LIMIT, "the time of a run ends after 71 minutes");
    set_time(time);
    core_time = time;
    if (nanoseconds < (uint64_t)time * NANOSECONDS)
        nanoseconds = (uint64_t)time * NANOSECONDS;
}

void catch_up(void) { move_to(microseconds()); }

bool is_due(const Thread *thread) { return thread->is_timed && core_time >= thread->deadline; }

/* A deadline that isn't reached yet ends its wait. */
bool waits_for_time(const Thread *thread)
{
    return (thread->open || thread->can_go != NULL) && thread->is_timed && !is_due(thread);
}

bool move_to_deadline(void)
{
    const Thread *first = NULL;

    for (uint32_t i = 0; i < living.count; i++) {
        const Thread *thread = living.at[i];
        if (waits_for_time(thread) && (first == NULL || thread->deadline < first->deadline))
            first = thread;
    }
    if (first != NULL)
        move_to(first->deadline);
    return first != NULL;
}

/* In microseconds of the run, rounded up. */
void set_deadline(Thread *thread, clockid_t clock, const struct timespec *at)
{
    int64_t second = at->tv_sec - first_second(clock);
    uint64_t behind = ((uint64_t)at->tv_nsec + NANOSECONDS - 1) / NANOSECONDS;

    thread->is_timed = true;
    if (second < 0)
        thread->deadline = 0;
    else
        thread->deadline = second > LAST_SECOND ? UINT32_MAX : bounded((uint64_t)second * MICROSECONDS + behind);
}

void set_timeout(Thread *thread, uint64_t time)
{
    thread->is_timed = true;
    thread->deadline = bounded((uint64_t)microseconds() + time);
}

int clock_gettime(clockid_t clock, struct timespec *time)
{
    if (!is_of_the_run(clock) || !keeps_time) {
        long answer = syscall(SYS_clock_gettime, clock, time);
        return (int)answer;
    }
    nanoseconds += NANOSECONDS;
    time->tv_sec = (time_t)(first_second(clock) + (int64_t)(nanoseconds / SECOND));
    time->tv_nsec = (long)(nanoseconds % SECOND);
    return 0;
}

int gettimeofday(struct timeval *restrict time, void *restrict zone)
{
    struct timespec now;

    (void)zone;
    clock_gettime(CLOCK_REALTIME, &now);
    time->tv_sec = now.tv_sec;
    time->tv_usec = now.tv_nsec / NANOSECONDS;
    return 0;
}

time_t time(time_t *where)
{
    struct timespec now;

    clock_gettime(CLOCK_REALTIME, &now);
    if (where != NULL)
        *where = now.tv_sec;
    return now.tv_sec;
}

int timespec_get(struct timespec *time, int base)
{
    return base == TIME_UTC && clock_gettime(CLOCK_REALTIME, time) == 0 ? base : 0;
}

/* SLEEP */

static bool has_slept(const Thread *thread) { return is_due(thread); }

/* How much is left of it, if a handler ran meanwhile. */
static uint32_t sleep_until_due(Thread *me)
{
    point(me);
    uint32_t end = me->deadline;
    bool is_whole = wait_or_handle(me, has_slept, NULL, "sleeps");
    leave(me);
    return is_whole ? 0 : end - core_time;
}

static bool is_length(const struct timespec *time)
{
    return time->tv_sec >= 0 && time->tv_nsec >= 0 && time->tv_nsec < SECOND;
}

/* Before there are threads nobody else can go, and the time moves at once. */
static int sleep_alone(clockid_t clock, int flags, const struct timespec *time, struct timespec *rest)
{
    if (!keeps_time)
        return syscall(SYS_clock_nanosleep, clock, flags, time, rest) == 0 ? 0 : errno;
    int64_t seconds = time->tv_sec - ((flags & TIMER_ABSTIME) != 0 ? first_second(clock) : 0);
    uint64_t length = seconds < 0 ? 0 : (uint64_t)seconds * SECOND + (uint64_t)time->tv_nsec;
    if ((flags & TIMER_ABSTIME) != 0)
        nanoseconds = length > nanoseconds ? length : nanoseconds;
    else
        nanoseconds += length;
    return 0;
}

int clock_nanosleep(clockid_t clock, int flags, const struct timespec *time, struct timespec *rest)
{
    if (keeps_time && (!is_of_the_run(clock) || !is_length(time)))
        return EINVAL;
    Thread *me = enter_if_on("clock_nanosleep", CALLER);
    if (me == NULL)
        return sleep_alone(clock, flags, time, rest);
    if ((flags & TIMER_ABSTIME) != 0)
        set_deadline(me, clock, time);
    else
        set_timeout(me, (uint64_t)time->tv_sec * MICROSECONDS + (uint64_t)time->tv_nsec / NANOSECONDS + 1);
    uint32_t left = sleep_until_due(me);
    if (left > 0 && rest != NULL && (flags & TIMER_ABSTIME) == 0)
        *rest = (struct timespec){left / MICROSECONDS, (long)(left % MICROSECONDS) * NANOSECONDS};
    return left > 0 ? EINTR : 0;
}

int nanosleep(const struct timespec *time, struct timespec *rest)
{
    int why = clock_nanosleep(CLOCK_MONOTONIC, 0, time, rest);

    errno = why != 0 ? why : errno;
    return why == 0 ? 0 : -1;
}

int usleep(useconds_t time)
{
    struct timespec length = {time / MICROSECONDS, (long)(time % MICROSECONDS) * NANOSECONDS};

    return nanosleep(&length, NULL);
}

unsigned sleep(unsigned seconds)
{
    struct timespec length = {seconds, 0}, rest = {seconds, 0};

    return nanosleep(&length, &rest) == 0 ? 0 : (unsigned)rest.tv_sec + (rest.tv_nsec > 0);
}

int thrd_sleep(const struct timespec *time, struct timespec *rest)
{
    return nanosleep(time, rest) == 0 ? 0 : errno == EINTR ? -1 : -2;
}

int sched_yield(void)
{
    Thread *me = enter_if_on("sched_yield", CALLER);

    if (me == NULL)
        return (int)syscall(SYS_sched_yield);
    point(me);
    find_nothing(me);
    leave(me);
    return 0;
}

void thrd_yield(void) { sched_yield(); }
