/* The hammer's calls of Abseil: locks have no deadline there. */
#include <cerrno>

#include "absl/synchronization/mutex.h"
#include "absl/time/time.h"
#include "calls.h"

static absl::Mutex held[MOST_MUTEXES];
static absl::CondVar waited[MOST_VARIABLES];

static int lock(unsigned mutex)
{
    held[mutex].Lock();
    return 0;
}

static int trylock(unsigned mutex) { return held[mutex].TryLock() ? 0 : EBUSY; }

static int unlock(unsigned mutex)
{
    held[mutex].Unlock();
    return 0;
}

static int wait_on(unsigned variable, unsigned mutex)
{
    waited[variable].Wait(&held[mutex]);
    return 0;
}

static int timedwait(unsigned variable, unsigned mutex, unsigned time)
{
    return waited[variable].WaitWithTimeout(&held[mutex], absl::Microseconds(time)) ? ETIMEDOUT : 0;
}

static int signal_one(unsigned variable)
{
    waited[variable].Signal();
    return 0;
}

static int broadcast(unsigned variable)
{
    waited[variable].SignalAll();
    return 0;
}

void calls(Calls *all) { *all = Calls{lock, trylock, nullptr, unlock, wait_on, timedwait, signal_one, broadcast}; }
