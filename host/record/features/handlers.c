/* A signal's handler that makes calls between any two instructions of another call. */
#include <stdbool.h>
#include <stdio.h>
#include <stdlib.h>

#include "features.h"

#ifdef __x86_64__

#include <signal.h>
#include <x86intrin.h>

enum { MOST_TRAPS = 8192, TRAP_FLAG = 0x100 };

static pthread_mutex_t unrecorded = PTHREAD_MUTEX_INITIALIZER, outer, inner[MOST_TRAPS];
static volatile sig_atomic_t traps;

static void lock_at_trap(int number)
{
    (void)number;
    if (traps == MOST_TRAPS)
        abort();
    lock_and_unlock(&inner[traps]);
    traps++;
}

/* From here on the processor traps after each instruction, or no more. Out of line, so that nothing passes it. */
__attribute__((noinline)) static void step(bool is_on)
{
    unsigned long long flags = __readeflags();

    __writeeflags(is_on ? flags | TRAP_FLAG : flags & ~(unsigned long long)TRAP_FLAG);
}

/* Each trap has a mutex of its own. The first lock is the first of the program, so that the thread is new to the
   recorder. The one before it finds the functions, and isn't recorded with RECORD_ONLY=inherit. */
static void handler_everywhere(void)
{
    make_inheriting(&outer);
    for (int i = 0; i < MOST_TRAPS; i++)
        make_inheriting(&inner[i]);
    lock_and_unlock(&unrecorded);
    signal(SIGTRAP, lock_at_trap);
    step(true);
    lock_and_unlock(&outer);
    step(false);
    printf("%d\n", (int)traps);
}

#else

static void handler_everywhere(void) { abort(); }

#endif

const Feature handler_features[] = {
    {"handler_everywhere", "a signal's handler that locks after each instruction of a lock", handler_everywhere},
    {NULL, NULL, NULL},
};
