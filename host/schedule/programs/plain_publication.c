/* A value is said to be there before it is made, and the first look at that is without the mutex: by plain memory, with
   no call between the two. Mended: it is said behind, by an atomic flag. */
#include <assert.h>
#include <stdatomic.h>

#include "programs.h"

static pthread_mutex_t lock = PTHREAD_MUTEX_INITIALIZER;
#if MENDED
static atomic_bool is_made;
#else
static bool is_made;
#endif
static int value;

static void make(void)
{
    if (!MENDED)
        is_made = true;
    value = 42;
    if (MENDED)
        is_made = true;
}

static void *use(void *unused)
{
    if (!is_made) {
        pthread_mutex_lock(&lock);
        if (!is_made)
            make();
        pthread_mutex_unlock(&lock);
    }
    assert(value == 42);
    return unused;
}

int main(void)
{
    start_and_join((Body *[]){use, use}, 2);
    return 0;
}
