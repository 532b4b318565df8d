/* What the programs of this folder share. Each has a bug of real programs, and with -DMENDED=1 it is mended. */
#ifndef PIF_PROGRAMS_H
#define PIF_PROGRAMS_H

#include <pthread.h>
#include <stdbool.h>
#include <stdlib.h>

#ifndef MENDED
#define MENDED 0
#endif

enum { MOST_BODIES = 8 };

typedef void *Body(void *);

/* A thread for each body. What is handed to it is its number, from 0. */
static inline void start_and_join(Body *const bodies[], long count)
{
    pthread_t names[MOST_BODIES];

    for (long i = 0; i < count; i++)
        if (pthread_create(&names[i], NULL, bodies[i], (void *)i) != 0)
            exit(2);
    for (long i = 0; i < count; i++)
        pthread_join(names[i], NULL);
}

#endif
