/* The threads of a run go one at a time, so all are on one processor: to wake the next one on another is several times as
   dear. The program is told of all processors that it has. Once it asks for some itself, its threads have those that they
   would have without the tool. */
#define _GNU_SOURCE
#include <sched.h>
#include <stdlib.h>
#include <string.h>
#include <sys/syscall.h>
#include <unistd.h>

#include "schedule.h"

static const char variable[] = "PIF_SCHEDULE_PROCESSORS"; /* the numbers of those that the tool has, by commas */

static cpu_set_t all;   /* those of the run */
static bool shares_one; /* its threads are on one of them */

static bool keep_to(const cpu_set_t *some) { return syscall(SYS_sched_setaffinity, 0, sizeof *some, some) == 0; }

void share_processor(void)
{
    cpu_set_t one;
    int here = sched_getcpu();

    if (here < 0 || here >= CPU_SETSIZE || syscall(SYS_sched_getaffinity, 0, sizeof all, &all) < 0)
        return;
    CPU_ZERO(&one);
    CPU_SET(here, &one);
    shares_one = keep_to(&one);
}

void leave_processor(void)
{
    if (shares_one)
        keep_to(&all);
    shares_one = false;
}

void take_processors(void)
{
    const char *given = getenv(variable);
    cpu_set_t some;

    CPU_ZERO(&some);
    while (given != NULL && *given >= '0' && *given <= '9') {
        char *behind;
        unsigned long number = strtoul(given, &behind, 10);
        if (number < CPU_SETSIZE)
            CPU_SET(number, &some);
        given = *behind == ',' ? behind + 1 : behind;
    }
    if (CPU_COUNT(&some) > 0)
        keep_to(&some);
}

/* The program asks for some: before that each thread has all again. What it starts has what it asks for. */
static void part(void)
{
    hide_variable(variable);
    if (!shares_one)
        return;
    for (uint32_t i = 0; i < living.count; i++)
        BELOW(pthread_setaffinity_np)(living.at[i]->name, sizeof all, &all);
    shares_one = false;
}

/* Whether the kernel's number is of a thread of this process; 0 is the one that asks. */
static bool is_of_the_run(pid_t number) { return number == 0 || syscall(SYS_tgkill, getpid(), number, 0) == 0; }

static int tell_all(int answer, size_t size, cpu_set_t *set)
{
    if (answer == 0 && shares_one) {
        memset(set, 0, size);
        memcpy(set, &all, size < sizeof all ? size : sizeof all);
    }
    return answer;
}

int sched_getaffinity(pid_t number, size_t size, cpu_set_t *set)
{
    int answer = BELOW(sched_getaffinity)(number, size, set);

    return is_of_the_run(number) ? tell_all(answer, size, set) : answer;
}

int pthread_getaffinity_np(pthread_t name, size_t size, cpu_set_t *set)
{
    return tell_all(BELOW(pthread_getaffinity_np)(name, size, set), size, set);
}

int sched_setaffinity(pid_t number, size_t size, const cpu_set_t *set)
{
    if (is_of_the_run(number))
        part();
    return BELOW(sched_setaffinity)(number, size, set);
}

int pthread_setaffinity_np(pthread_t name, size_t size, const cpu_set_t *set)
{
    part();
    return BELOW(pthread_setaffinity_np)(name, size, set);
}

int pthread_attr_setaffinity_np(pthread_attr_t *attributes, size_t size, const cpu_set_t *set)
{
    part();
    return BELOW(pthread_attr_setaffinity_np)(attributes, size, set);
}
