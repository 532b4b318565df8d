/* The hammer's calls of nsync: locks have no deadline there. */
#include <errno.h>
#include <nsync.h>
#include <stddef.h>

#include "calls.h"

static nsync_mu held[MOST_MUTEXES];
static nsync_cv waited[MOST_VARIABLES];

static int lock(unsigned mutex)
{
    nsync_mu_lock(&held[mutex]);
    return 0;
}

static int trylock(unsigned mutex) { return nsync_mu_trylock(&held[mutex]) ? 0 : EBUSY; }

static int unlock(unsigned mutex)
{
    nsync_mu_unlock(&held[mutex]);
    return 0;
}

static int wait_on(unsigned variable, unsigned mutex)
{
    nsync_cv_wait(&waited[variable], &held[mutex]);
    return 0;
}

static int timedwait(unsigned variable, unsigned mutex, unsigned time)
{
    nsync_time deadline = nsync_time_add(nsync_time_now(), nsync_time_us(time));

    return nsync_cv_wait_with_deadline(&waited[variable], &held[mutex], deadline, NULL);
}

static int signal_one(unsigned variable)
{
    nsync_cv_signal(&waited[variable]);
    return 0;
}

static int broadcast(unsigned variable)
{
    nsync_cv_broadcast(&waited[variable]);
    return 0;
}

void calls(Calls *all)
{
    *all = (Calls){lock, trylock, NULL, unlock, wait_on, timedwait, signal_one, broadcast};
}
