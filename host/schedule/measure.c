/* measure THREADS PAIRS [MUTEXES]: what a lock or an unlock costs, by the machine's own clocks. Each thread makes so many
   pairs, on one mutex, or on so many in turn. `measure THREADS WRITES writes`: what a write of memory costs, of which each
   thread makes so many to its own. Run alone it measures glibc, and by pif-schedule the library. */
#include <pthread.h>
#include <stdbool.h>
#include <stdio.h>
#include <stdlib.h>
#include <string.h>
#include <sys/syscall.h>
#include <time.h>
#include <unistd.h>

enum { MOST = 64 }; /* threads, and mutexes */

static pthread_mutex_t locks[MOST];
static struct {
    long number, unused[7]; /* none shares a line of a cache */
} own[MOST];
static long count, mutexes = 1;

/* In nanoseconds; not by the run's time. */
static double now(clockid_t clock)
{
    struct timespec time;

    syscall(SYS_clock_gettime, clock, &time);
    return (double)time.tv_sec * 1e9 + (double)time.tv_nsec;
}

static void *make_pairs(void *unused)
{
    for (long i = 0; i < count; i++) {
        pthread_mutex_lock(&locks[i % mutexes]);
        pthread_mutex_unlock(&locks[i % mutexes]);
    }
    return unused;
}

static void *write_memory(void *number)
{
    for (long i = 0; i < count; i++) {
        *(long *)number = i;
        __asm__ volatile("" ::: "memory"); /* each is made */
    }
    return NULL;
}

static long from_1(const char *word, long most)
{
    long number = strtol(word, NULL, 10);

    return number >= 1 && number <= most ? number : 0;
}

static bool run(long threads, void *(*work)(void *))
{
    pthread_t names[MOST];

    for (long i = 0; i < threads; i++)
        if (pthread_create(&names[i], NULL, work, &own[i].number) != 0)
            return false;
    for (long i = 0; i < threads; i++)
        pthread_join(names[i], NULL);
    return true;
}

int main(int words, char **word)
{
    bool writes = words == 4 && strcmp(word[3], "writes") == 0;
    long threads = words >= 3 ? from_1(word[1], MOST) : 0;

    count = words >= 3 ? from_1(word[2], 1000000000) : 0;
    if (words == 4 && !writes)
        mutexes = from_1(word[3], MOST);
    if (threads == 0 || count == 0 || mutexes == 0 || words > 4)
        return 2;
    for (long i = 0; i < mutexes; i++)
        pthread_mutex_init(&locks[i], NULL);
    double began = now(CLOCK_MONOTONIC), spent = now(CLOCK_PROCESS_CPUTIME_ID);
    if (!run(threads, writes ? write_memory : make_pairs))
        return 2;
    double calls = (writes ? 1.0 : 2.0) * (double)count * (double)threads;
    fprintf(stderr, "%.1f nanoseconds a call, %.1f of a processor\n", (now(CLOCK_MONOTONIC) - began) / calls,
           (now(CLOCK_PROCESS_CPUTIME_ID) - spent) / calls);
    return 0;
}
