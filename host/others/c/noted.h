/* Calls of pthreads that note themselves by pif_record.h, for a C library into which nothing can be preloaded. */
#ifndef PIF_NOTED_H
#define PIF_NOTED_H

#include <pthread.h>
#include <sched.h>
#include <stdbool.h>
#include <time.h>

int noted_mutex_init(pthread_mutex_t *, const pthread_mutexattr_t *);
int noted_cond_init(pthread_cond_t *, const pthread_condattr_t *);
int noted_lock(pthread_mutex_t *);
int noted_trylock(pthread_mutex_t *);
int noted_timedlock(pthread_mutex_t *, const struct timespec *);
int noted_unlock(pthread_mutex_t *);
int noted_consistent(pthread_mutex_t *);
int noted_wait(pthread_cond_t *, pthread_mutex_t *);
int noted_timedwait(pthread_cond_t *, pthread_mutex_t *, const struct timespec *);
int noted_signal(pthread_cond_t *);
int noted_broadcast(pthread_cond_t *);
int noted_setschedprio(pthread_t, int);
int noted_create(pthread_t *, const pthread_attr_t *, void *(*)(void *), void *);
int noted_join(pthread_t, void **);
int noted_detach(pthread_t);

/* The mutex, counted from 1, with which the variable of this number is used. The program says it. */
unsigned mutex_of(unsigned variable);

/* Writes what was noted to RECORD_FILE; whether that is done, or there is no such name. */
bool write_noted(void);

/* At SIGALRM and SIGTERM the history is written, and the program ends with status 9. It is written, too, if the program
   is about to end by SIGABRT, SIGSEGV or SIGBUS. */
void write_when_hung(void);

#endif
