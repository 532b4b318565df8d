/* Small programs, one for each thing that the recorder has to get right. */
#ifndef PIF_RECORD_FEATURES_H
#define PIF_RECORD_FEATURES_H

#include <pthread.h>
#include <semaphore.h>
#include <stdbool.h>
#include <sys/types.h>
#include <time.h>

enum { SHORT_MS = 20 };

typedef struct {
    const char *name, *what;
    void (*run)(void);
} Feature;

extern const Feature mutex_features[], variable_features[], thread_features[], left_out_features[], end_features[],
    handler_features[], difference_features[], passed_features[], process_features[], part_features[];

/* Adds to CLOCK_MONOTONIC, as the recorder reads it. */
extern time_t skipped_seconds;

/* If it isn't 0, each look at a clock finds it so many nanoseconds later than the one before, from 1 s on. */
extern long step_of_clock;

/* Then /proc/self/maps can't be opened. */
extern bool hides_maps;

void make_mutex(pthread_mutex_t *, int type, bool is_robust, int protocol);
void make_inheriting(pthread_mutex_t *);
void lock_and_unlock(pthread_mutex_t *);
pthread_t start(void *(*body)(void *), void *argument);
void run_to_end(void *(*body)(void *), void *argument);
struct timespec after(clockid_t, long milliseconds);
void sleep_ms(long milliseconds);
void until_in(pid_t thread, long call); /* of the kernel's */
void until_blocked(pid_t thread);       /* in a futex call */
void until_gone(pid_t thread);
void until(sem_t *);

#endif
