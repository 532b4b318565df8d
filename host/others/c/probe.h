/* An aimed probe: a few threads that meet in a way in which random ones seldom do. */
#ifndef PIF_PROBE_H
#define PIF_PROBE_H

#include "hammer.h"

enum { DEADLINES = 1, FIFO = 2, RECURSION = 4, PTHREADS = 8, ROBUST = 16 };
enum { ANY_PROCESSOR = -1, OTHER = 0, MIDDLE = 20 };

/* What it needs is a sum of the numbers above. A probe is played `rounds` times, one behind another. */
typedef struct {
    const char *name;
    unsigned threads, mutexes, variables, rounds, needs;
    void (*play)(void);
} Probe;

/* Lists that end with a name that is NULL. */
extern const Probe probes_of_calls[], probes_of_ends[];

/* How far the threads of a round are. */
extern _Atomic int stage;

/* The next thread: what it does, with a priority of SCHED_FIFO or OTHER, on one processor or on any. */
void go(void (*)(void), int priority, int processor);

/* All threads of a round have ended. */
void join_all(void);

/* Until the stage is so far: asleep, or awake. */
void await(int wanted);
void watch(int wanted);

void set(int reached);
void rest(unsigned microseconds);
void spin(unsigned turns);

/* The time in microseconds, and until it is so late, awake. */
unsigned now(void);
void until(unsigned time);

/* A number by the seed. */
unsigned pick(unsigned below);

/* Whether a mutex was had by this answer; an owner that has ended counts, and is mended. */
bool has(int answer, unsigned mutex);

/* A call that gives up a mutex if it was had. */
void give_up(int answer, unsigned mutex);

#endif
