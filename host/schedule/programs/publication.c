/* A value is said to be there before it is made, and the first look at that is without the mutex. Mended: after.
   Between the two stands a call; without one no point would. */
#include <assert.h>
#include <stdatomic.h>

#include "programs.h"

static pthread_mutex_t lock = PTHREAD_MUTEX_INITIALIZER, log_lock = PTHREAD_MUTEX_INITIALIZER;
static atomic_bool is_made;
static atomic_int value;
static int logged;

static void note(void)
{
    pthread_mutex_lock(&log_lock);
    logged++;
    pthread_mutex_unlock(&log_lock);
}

static void make(void)
{
    if (!MENDED)
        is_made = true;
    note();
    value = 42;
    is_made = true;
}

static void *use(void *unused)
{
    if (!is_made) {
        pthread_mutex_lock(&lock);
        if (!is_made)
            make();
        pthread_mutex_unlock(&lock);
    }
    assert(value == 42);
    return unused;
}

int main(void)
{
    start_and_join((Body *[]){use, use}, 2);
    return logged == 1 ? 0 : 1;
}
