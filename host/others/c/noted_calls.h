/* The compiler is given this file by -include, and then a program's calls of pthreads are those of noted.h. */
#ifndef PIF_NOTED_CALLS_H
#define PIF_NOTED_CALLS_H

#include "noted.h"

#define pthread_mutex_init noted_mutex_init
#define pthread_cond_init noted_cond_init
#define pthread_mutex_lock noted_lock
#define pthread_mutex_trylock noted_trylock
#define pthread_mutex_timedlock noted_timedlock
#define pthread_mutex_unlock noted_unlock
#define pthread_mutex_consistent noted_consistent
#define pthread_cond_wait noted_wait
#define pthread_cond_timedwait noted_timedwait
#define pthread_cond_signal noted_signal
#define pthread_cond_broadcast noted_broadcast
#define pthread_setschedprio noted_setschedprio
#define pthread_create noted_create
#define pthread_join noted_join
#define pthread_detach noted_detach

#endif
