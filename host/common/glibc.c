/* What is known of glibc: its calls below a preloaded library, and what its attributes say. */
#define _GNU_SOURCE
#include <dlfcn.h>
#include <sched.h>

#include "common.h"

void *below(const char *name) { return dlsym(RTLD_NEXT, name); }

/* Of glibc's calls on condition variables there are two versions on some machines, and the old one is of another form.
   A library between this one and glibc has its own. */
void *new_below(const char *name)
{
    void *first = below(name), *versioned = dlvsym(RTLD_NEXT, name, "GLIBC_2.3.2");
    Dl_info of_first, of_versioned;

    if (versioned == NULL || dladdr(first, &of_first) == 0 || dladdr(versioned, &of_versioned) == 0)
        return first;
    return of_first.dli_fbase == of_versioned.dli_fbase ? versioned : first;
}

int plain_policy(int policy) { return policy & ~SCHED_RESET_ON_FORK; }

bool is_real_time(int policy)
{
    return plain_policy(policy) == SCHED_FIFO || plain_policy(policy) == SCHED_RR;
}

bool is_time(clockid_t clock, const struct timespec *time)
{
    return (clock == CLOCK_REALTIME || clock == CLOCK_MONOTONIC) && time->tv_nsec >= 0 && time->tv_nsec < SECOND;
}

int priority_by(const pthread_attr_t *attributes, int priority_of_maker)
{
    struct sched_param parameters;
    int inherits = PTHREAD_INHERIT_SCHED, policy;

    if (attributes != NULL)
        pthread_attr_getinheritsched(attributes, &inherits);
    if (inherits != PTHREAD_EXPLICIT_SCHED)
        return priority_of_maker;
    if (pthread_attr_getschedpolicy(attributes, &policy) != 0 || !is_real_time(policy))
        return LEAST_PRIORITY;
    return pthread_attr_getschedparam(attributes, &parameters) != 0 ? LEAST_PRIORITY : parameters.sched_priority;
}
