/* What all parts of pif-host share: the threads, mutexes and variables of a script, on this machine. */
#ifndef PIF_HOST_H
#define PIF_HOST_H

#include <errno.h>
#include <linux/futex.h>
#include <pthread.h>
#include <stdatomic.h>
#include <stdio.h>
#include <sys/types.h>

#include "script.h"

enum {
    STATUS_DONE,
    STATUS_WORDS,
    STATUS_FAULT,
    STATUS_INPUT_OUTPUT,
    STATUS_MEMORY,
    STATUS_THREADS = 6,
    STATUS_CANNOT_ASK = 7, /* this system, or this user's rights */
    STATUS_SLOW = 8,       /* a deadline passed before its tick, each time */
};

typedef enum { GLIBC, RAW } Way;

/* What a thread of the script does; it is told to and asked through `stage`. */
typedef enum {
    STARTS,
    RESTS,    /* no call is open */
    WORKS,    /* it runs, or is in the kernel */
    HELD,     /* its wait in the kernel is over, and it goes on when it is told to */
    STEPPED,  /* raw: a step is done, and the call goes on */
    ANSWERED, /* the call has its answer */
} Stage;

/* A mutex of the raw way. The kernel finds `word` from `node` by the list's offset. */
typedef struct {
    struct robust_list node;
    uint32_t word, health;
    uint32_t times; /* how often its owner holds it; the owner's own */
} RawMutex;

typedef struct {
    Kind kind;
    bool robust;
    pthread_mutex_t glibc;
    RawMutex raw;
} Mutex;

typedef struct {
    pthread_cond_t glibc;
    uint32_t word, mutex, most; /* most: signals and broadcasts */
} Cond;

/* What a thread of the raw way remembers between two steps of a call. */
typedef struct {
    struct robust_list_head head;
    int place;
    uint32_t seen, expected;
    int result;
    bool died, expired;
} Steps;

struct Host;

typedef struct Worker {
    struct Host *host;
    uint32_t number;
    pthread_t handle;
    _Atomic pid_t kernel_id;
    int orders[2]; /* a pipe: each byte is one order to go on */
    _Atomic Stage stage;
    atomic_bool told; /* the script was told `waits`: hold it behind its wait */
    atomic_uint turn;        /* how many threads had run when it ran last; turns.c */
    int noted;               /* its priority then */
    int level, level_before; /* that which the last step left, and the one before; 0 where it isn't ready */
    bool placed;             /* its place among its equals was seen */
    bool ended, open;
    Request request;
    int answer;
    bool timed;
    size_t tick;             /* the command at which the deadline is reached */
    struct timespec until;   /* that time of this machine's clock */
    uint32_t nowhere;        /* the word on which it stops for good */
    Steps steps;
} Worker;

typedef struct Host {
    Way way;
    const Script *script;
    size_t at; /* the command that is run */
    Worker *workers;
    Mutex *mutexes;
    Cond *conds;
    uint32_t worker_count, mutex_count, cond_count;
    uint32_t limits[4];
    uint32_t time;
    bool lost; /* from here on nothing can be asked */
    bool picks, late;       /* the script asks `pick`; who was woken is late */
    Worker *_Atomic keeper; /* the thread that keeps the processor */
    atomic_uint turns;
    unsigned seen; /* the turns before the last step */
    unsigned look_ms, pace_ms;
    FILE *output;
} Host;

static inline Worker *worker_of(Host *host, uint32_t number) { return &host->workers[number - 1]; }
static inline Mutex *mutex_of(Host *host, uint32_t number) { return &host->mutexes[number - 1]; }
static inline Cond *cond_of(Host *host, uint32_t number) { return &host->conds[number - 1]; }

/* run.c: runs the script, and prints a line for each command. */
int run_script(Host *host);

/* deadlines.c */
void plan_deadline(Host *host, Worker *worker);   /* at a begin */
void renew_deadline(Host *host, Worker *worker);  /* before a step */
void pass_deadlines(Host *host);                  /* behind a tick, and behind a step */
void close_deadline(Host *host, Worker *worker);  /* at an answer */
bool is_late(Host *host);                         /* behind a command: did a deadline pass before its tick? */

/* workers.c */
bool start_worker(Host *host, Worker *worker, uint32_t priority);
bool end_worker(Worker *worker);
void order(Worker *worker);
void rouse(Worker *worker); /* lets it run, with nothing to do */
bool wait_in_kernel(Worker *worker); /* behind a wait in the kernel: was it held? */
Worker *this_worker(void);
void pause_us(long us);

/* turns.c: who has the processor */
bool asks_pick(const Script *script);
void keep_processor(Worker *worker);               /* a thread behind its step */
void note_turn(Worker *worker);                    /* a thread before it blocks */
void order_in_turn(Host *host, Worker *worker);
void take_turns(Host *host);                       /* behind a step */
void place_added(Host *host, Worker *worker);
const Worker *first_in_turn(Host *host, bool *known);

/* look.c: /proc/self/task */
bool is_in_futex(pid_t thread);
bool is_at_rest(pid_t thread);
bool is_gone(pid_t thread);
int effective_priority(pid_t thread);

/* hold.c: takes each futex call of glibc aside. */
bool hold_futex_calls(void);

/* glibc.c, raw.c */
bool make_glibc_mutex(Mutex *mutex);
bool make_glibc_cond(Cond *cond);
int call_glibc(Worker *worker);
int make_raw_step(Worker *worker); /* an answer, or WENT */
void begin_raw(Worker *worker);
void list_raw(Worker *worker); /* registers its robust list */

enum { WENT = -1 };

/* system.c */
int check_system(FILE *errors); /* STATUS_DONE, or why this machine can't be asked */
void print_versions(FILE *output);
bool take_processor(void); /* one processor, above all threads of the script */

#endif
