/* Small programs, one for each thing that the library has to get right, or to refuse. */
#ifndef PIF_SCHEDULE_FEATURES_H
#define PIF_SCHEDULE_FEATURES_H

#include <pthread.h>
#include <stdbool.h>
#include <time.h>

typedef struct {
    const char *name;
    void (*run)(void);
} Feature;

extern const Feature lock_features[], wait_features[], kernel_features[], memory_features[],
    handler_features[], ended_features[];

/* Ends the program with status 3 if this doesn't hold, and says where. */
#define CHECK(condition) check(condition, #condition, __FILE__, __LINE__)
void check(bool holds, const char *condition, const char *file, int line);

pthread_t start(void *(*body)(void *), void *argument);
void run_two(void *(*one)(void *), void *(*other)(void *));
void make_mutex(pthread_mutex_t *, int type, bool is_robust);
struct timespec after(clockid_t, long milliseconds);
bool is_before(struct timespec, struct timespec);

#endif
