/* A barrier of a mutex and a variable opens when its count is 0 again. Who is fast comes to the next round, and counts
   there, before who is slow has looked: that one waits for good. Mended: each round has a number. The fast thread has a
   greater priority, so the mutex is handed to it first. */
#include "programs.h"

enum { COUNT = 3, ROUNDS = 2, PRIORITY = 10 };

static pthread_mutex_t lock = PTHREAD_MUTEX_INITIALIZER;
static pthread_cond_t opened = PTHREAD_COND_INITIALIZER;
static int here, round_number;

static void pass(void)
{
    pthread_mutex_lock(&lock);
    int present = round_number;
    if (++here == COUNT) {
        here = 0;
        round_number++;
        pthread_cond_broadcast(&opened);
    }
    while (MENDED ? round_number == present : here != 0)
        pthread_cond_wait(&opened, &lock);
    pthread_mutex_unlock(&lock);
}

static void *run(void *unused)
{
    for (int round = 0; round < ROUNDS; round++)
        pass();
    return unused;
}

static void *run_fast(void *unused)
{
    pthread_setschedparam(pthread_self(), SCHED_FIFO, &(struct sched_param){PRIORITY});
    return run(unused);
}

int main(void)
{
    start_and_join((Body *[]){run, run, run_fast}, COUNT);
    return 0;
}
