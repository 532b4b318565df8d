/* What the hammer is told, what its threads share, and what one thread does. */
#ifndef PIF_HAMMER_H
#define PIF_HAMMER_H

#include <pthread.h>
#include <stdatomic.h>
#include <stdbool.h>
#include <stdint.h>

enum { MOST_THREADS = 16, MOST_MUTEXES = 4, MOST_VARIABLES = 4, MOST_ANSWERS = 134 };
enum { STATUS_DONE, STATUS_WORDS, STATUS_THREADS = 6, STATUS_CANNOT_ASK = 7, STATUS_HUNG = 9 };

typedef struct {
    unsigned threads, mutexes, variables, calls, seconds;
    unsigned seed;
    unsigned trylocks, timed, waits, ends, priorities; /* per cent */
    unsigned rests; /* milliseconds from one rest of all threads to the next; 0: there is none */
    unsigned idle;  /* so many it lasts at least */
    bool fifo, kinds, robust, all_robust, plain;
    bool std, parking_lot;
    bool recursive; /* all mutexes are: a library has only such */
    const char *library;
} Orders;

typedef struct {
    pthread_mutex_t mutex;
    int type;
    bool is_robust;
} Mutex;

/* A place for threads, one behind another: when one ends, the next goes on with what is left of its calls. */
typedef struct {
    unsigned number, left;
    uint64_t random;
    unsigned held[MOST_MUTEXES];
    pthread_t thread;
    _Atomic bool has_ended; /* or is about to */
    bool is_running;
} Slot;

/* Whose mutexes and variables are called: glibc's, or those of Rust or of a library. Places of both are counted from 0, and times are
   microseconds from now. A timedlock may be missing. */
typedef struct {
    int (*lock)(unsigned mutex);
    int (*trylock)(unsigned mutex);
    int (*timedlock)(unsigned mutex, unsigned time);
    int (*unlock)(unsigned mutex);
    int (*wait)(unsigned variable, unsigned mutex);
    int (*timedwait)(unsigned variable, unsigned mutex, unsigned time);
    int (*signal)(unsigned variable);
    int (*broadcast)(unsigned variable);
} Calls;

extern Orders orders;
extern const Calls *calls;
extern const Calls glibc_calls;
extern Mutex mutexes[MOST_MUTEXES];
extern pthread_cond_t variables[MOST_VARIABLES];
extern _Atomic unsigned waiting[MOST_VARIABLES];
extern _Atomic unsigned long answers[MOST_ANSWERS];
extern _Atomic bool is_resting;   /* who holds nothing rests as long */
extern _Atomic unsigned resting; /* so many do */

void make_mutex(Mutex *, int type, bool is_robust);
unsigned choose(Slot *, unsigned below);
bool happens(Slot *, unsigned per_cent);
void *work(void *slot);

/* Mutexes of Rust, or of a library, are loaded, and their calls noted by pif_record.h; so each thread says its number. */
bool use_rust(const char *name, char **words);
bool use_library(const char *file, char **words);
void name_thread(unsigned number);
bool write_history(void);

#endif
