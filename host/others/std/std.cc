/* The hammer's calls of C++'s standard library. Which mutex and which variable it is say MUTEX and VARIABLE, and TIMED
   that its locks have deadlines. RECURSIVE says that the mutexes are. */
#include <cerrno>
#include <chrono>
#include <condition_variable>
#include <mutex>

#include "calls.h"

static MUTEX held[MOST_MUTEXES];
static VARIABLE waited[MOST_VARIABLES];

#ifdef RECURSIVE
extern "C" {
extern const bool is_recursive;
const bool is_recursive = true;
}
#endif

static int lock(unsigned mutex)
{
    held[mutex].lock();
    return 0;
}

static int trylock(unsigned mutex) { return held[mutex].try_lock() ? 0 : EBUSY; }

#ifdef TIMED
static int timedlock(unsigned mutex, unsigned time)
{
    return held[mutex].try_lock_for(std::chrono::microseconds(time)) ? 0 : ETIMEDOUT;
}
#else
static int (*const timedlock)(unsigned, unsigned) = nullptr;
#endif

static int unlock(unsigned mutex)
{
    held[mutex].unlock();
    return 0;
}

static int wait_on(unsigned variable, unsigned mutex)
{
    std::unique_lock<MUTEX> is_held(held[mutex], std::adopt_lock);

    waited[variable].wait(is_held);
    is_held.release();
    return 0;
}

static int timedwait(unsigned variable, unsigned mutex, unsigned time)
{
    std::unique_lock<MUTEX> is_held(held[mutex], std::adopt_lock);
    std::cv_status status = waited[variable].wait_for(is_held, std::chrono::microseconds(time));

    is_held.release();
    return status == std::cv_status::timeout ? ETIMEDOUT : 0;
}

static int signal_one(unsigned variable)
{
    waited[variable].notify_one();
    return 0;
}

static int broadcast(unsigned variable)
{
    waited[variable].notify_all();
    return 0;
}

void calls(Calls *all) { *all = Calls{lock, trylock, timedlock, unlock, wait_on, timedwait, signal_one, broadcast}; }
