/* What a library gives the hammer, of C or C++: a function `calls`, which fills in the Calls of hammer.h. */
#ifndef PIF_CALLS_H
#define PIF_CALLS_H

enum { MOST_MUTEXES = 4, MOST_VARIABLES = 4 };

#ifdef __cplusplus
extern "C" {
#endif

typedef struct {
    int (*lock)(unsigned mutex);
    int (*trylock)(unsigned mutex);
    int (*timedlock)(unsigned mutex, unsigned time);
    int (*unlock)(unsigned mutex);
    int (*wait)(unsigned variable, unsigned mutex);
    int (*timedwait)(unsigned variable, unsigned mutex, unsigned time);
    int (*signal)(unsigned variable);
    int (*broadcast)(unsigned variable);
} Calls;

void calls(Calls *);

#ifdef __cplusplus
}
#endif

#endif
