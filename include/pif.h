/* The proved core of pif, for C99 and C++: an oracle of priority-inheriting futexes with robust POSIX mutexes and
   condition variables. Build and link it as docs/CALLING.md says: `make -C c`, then `pkg-config --cflags --libs pif`.

   A core has threads, mutexes and condition variables, which you add, and answers what each call of pthread answers. It
   starts no thread: its threads are numbers, and each takes a step when you say so.

   A handle holds a core, or none. Your program owns the handle: `pif_core core = {0};`, in C++ `pif_core core = {};`,
   holds none, pif_core_new has it hold one, and pif_core_free gives that core up. In their place pif_core_open makes a
   handle that holds a core, for which nothing has to be zeros before, and pif_core_close gives both up. What you have
   to keep:

   - hand a handle back as the library wrote it: never read, write or copy its fields, and don't move it with memcpy;
   - give a handle to one call at a time. Between two calls it may pass to another thread, if you order the calls, as by
     a lock, a thread's start or a join. Different handles share nothing. A reader counts as a call: while it runs it
     takes the core out of the handle, and puts it back. So readers take no `const pif_core *`, and two threads may not
     read one handle at the same time;
   - give a pointer to a handle that is there, and to as many bytes as you say, which no other argument shares. A null
     pointer is allowed if its length is 0;
   - don't call from a signal handler, or in the child of a fork of a process with threads.

   Every other mistake is answered: for a handle with no core, numbers that name nothing, and limits out of range the
   result says so, and nothing has changed. No call ends the process, blocks, or writes anywhere but into the handle and
   into the room that you gave, or calls any function of yours but a sink and that of pif_options. Memory comes from
   malloc, realloc and free of your program, which align a block to 16 bytes. Of the calls on a handle only pif_core_new
   and pif_core_open take any; those over texts do while they run.

   The contracts in crates/pif_c say of each call what it answers and what the core is then. They are proved. It isn't
   proved that this header, your compiler and what you do agree with them. */
#ifndef PIF_H
#define PIF_H

#include <stdbool.h>
#include <stddef.h>
#include <stdint.h>

#ifdef __cplusplus
extern "C" {
#endif

/* The version of this header, of libpif.a and libpif.so, and of pif.pc. Its first number is that of the file to which a
   program is linked, libpif.so.1. */
#define PIF_VERSION "1.2.0"

/* The same for #if: 10000 times the first number, 100 times the second, and the third. A header of version 1.0 has
   none, so `#if defined PIF_VERSION_NUMBER && PIF_VERSION_NUMBER >= 10100` asks for version 1.1. */
#define PIF_VERSION_NUMBER 10200

/* Before a function that is called for its result, or that makes nothing if its result says so. */
#if defined __cplusplus && __cplusplus >= 201703L || defined __STDC_VERSION__ && __STDC_VERSION__ >= 202311L
#define PIF_NODISCARD [[nodiscard]]
#else
#define PIF_NODISCARD
#endif

/* PIF_VERSION_NUMBER of the library that is linked or loaded. */
PIF_NODISCARD
uint32_t pif_version(void);

/* A handle. Its fields are the library's. */
typedef struct pif_core {
    void *at;
    bool full;
} pif_core;

/* RESULTS */

/* 0, or why there is no number. */
enum pif_result {
    PIF_OK = 0,
    PIF_NO_CORE = 1,   /* the handle holds no core */
    PIF_NONE = 2,      /* nothing of that number was ever added, or what is asked for isn't there */
    PIF_TOO_MANY = 3,  /* the limit is reached */
    PIF_BAD_PRIO = 4,  /* the priority is outside 1 to 99 */
    PIF_NO_MUTEX = 5,  /* the mutex to which a variable is to be bound was never added */
    PIF_INVALID = 6,   /* a number is outside its range */
    PIF_FULL = 7,      /* the handle holds a core already */
    PIF_NO_MEMORY = 8  /* malloc refused a request */
};

/* A number, 0 if `result` isn't PIF_OK. */
typedef struct pif_number {
    uint32_t result; /* enum pif_result */
    uint32_t number;
} pif_number;

/* The owner of a mutex, and how often it holds the mutex, 1 to 255. */
typedef struct pif_owned {
    uint32_t result; /* enum pif_result */
    uint32_t thread;
    uint32_t count;
} pif_owned;

/* What a thread does. */
enum pif_state {
    PIF_READY = 0,   /* it may run */
    PIF_QUEUED = 1,  /* it waits for the mutex `waits_for` */
    PIF_PARKED = 2,  /* it waits for the condition variable `waits_for` */
    PIF_STOPPED = 3, /* it waits forever */
    PIF_GONE = 4     /* it has ended */
};

typedef struct pif_doing {
    uint32_t result;    /* enum pif_result */
    uint32_t state;     /* enum pif_state */
    uint32_t waits_for; /* a mutex or a condition variable, else 0 */
} pif_doing;

/* What became of an event. */
enum pif_what {
    PIF_NOTHING = 0,  /* the handle holds no core */
    PIF_BEGUN = 1,    /* the call is open */
    PIF_WENT = 2,     /* the step was taken; the call stays open and goes on */
    PIF_WAITS = 3,    /* the thread waits: for a mutex, for a condition variable, or forever */
    PIF_ANSWERED = 4, /* the call is closed; `detail` is its answer (enum pif_answer) */
    PIF_ENDED = 5,    /* the thread has ended, and its open call is gone */
    PIF_TICKED = 6,   /* the time is the one that was handed in */
    PIF_REFUSED = 7,  /* nothing has changed; `detail` says why (enum pif_refusal) */
    PIF_UNNAMED = 8   /* nothing has changed: no call has that number, or 0 stands where a number is needed */
};

typedef struct pif_seen {
    uint32_t what;   /* enum pif_what */
    uint32_t detail; /* of PIF_ANSWERED and PIF_REFUSED, else 0 */
} pif_seen;

/* Why an event was refused. If several hold it is the first in this order: of the thread PIF_NO_SUCH, then PIF_DEAD,
   then PIF_BUSY or PIF_IDLE, then PIF_NO_SUCH of what the call names. */
enum pif_refusal {
    PIF_NO_SUCH = 1, /* the thread was never added, or the call names what was never added */
    PIF_DEAD = 2,    /* the thread has ended */
    PIF_BUSY = 3,    /* the thread has a call open already */
    PIF_IDLE = 4,    /* the thread has no call open */
    PIF_PAST = 5     /* the time that was handed in is before the present one */
};

/* What a call of pthread answers, by the numbers of <errno.h> of Linux on x86-64. */
enum pif_answer {
    PIF_DONE = 0,
    PIF_EPERM = 1,             /* the caller isn't the owner */
    PIF_ESRCH = 3,             /* no living thread has that number */
    PIF_EAGAIN = 11,           /* the recursion count is at its limit */
    PIF_EBUSY = 16,            /* the mutex is held */
    PIF_EINVAL = 22,           /* an argument is not valid */
    PIF_EDEADLK = 35,          /* the caller owns the mutex, or waiting would close a cycle */
    PIF_EOVERFLOW = 75,        /* the variable has had all the signals that its limit allows */
    PIF_ETIMEDOUT = 110,       /* the deadline was reached */
    PIF_EOWNERDEAD = 130,      /* the owner ended; the caller owns the mutex now, in an inconsistent state */
    PIF_ENOTRECOVERABLE = 131  /* the mutex was left inconsistent, and can't be locked again */
};

/* The kind of a mutex, by the numbers of <pthread.h> of Linux. */
enum pif_kind { PIF_NORMAL = 0, PIF_RECURSIVE = 1, PIF_ERRORCHECK = 2 };

/* What is known of the state that a robust mutex protects, as its health word has it. */
enum pif_health_of { PIF_FINE = 0, PIF_INCONSISTENT = 1, PIF_UNUSABLE = 2 };

/* Bits of the word of a mutex, as futex(2) has them. The others are the number of its owner. */
#define PIF_WAITERS UINT32_C(0x80000000)
#define PIF_OWNER_DIED UINT32_C(0x40000000)

/* NAMES, for what you print. A number that stands for nothing there is "?". */

/* An answer, as `pif judge` writes it: "0", or as "EBUSY". */
PIF_NODISCARD
static inline const char *pif_answer_name(uint32_t answer)
{
    switch (answer) {
    case PIF_DONE: return "0";
    case PIF_EPERM: return "EPERM";
    case PIF_ESRCH: return "ESRCH";
    case PIF_EAGAIN: return "EAGAIN";
    case PIF_EBUSY: return "EBUSY";
    case PIF_EINVAL: return "EINVAL";
    case PIF_EDEADLK: return "EDEADLK";
    case PIF_EOVERFLOW: return "EOVERFLOW";
    case PIF_ETIMEDOUT: return "ETIMEDOUT";
    case PIF_EOWNERDEAD: return "EOWNERDEAD";
    case PIF_ENOTRECOVERABLE: return "ENOTRECOVERABLE";
    default: return "?";
    }
}

/* A result (enum pif_result). */
PIF_NODISCARD
static inline const char *pif_result_name(uint32_t result)
{
    switch (result) {
    case PIF_OK: return "PIF_OK";
    case PIF_NO_CORE: return "PIF_NO_CORE";
    case PIF_NONE: return "PIF_NONE";
    case PIF_TOO_MANY: return "PIF_TOO_MANY";
    case PIF_BAD_PRIO: return "PIF_BAD_PRIO";
    case PIF_NO_MUTEX: return "PIF_NO_MUTEX";
    case PIF_INVALID: return "PIF_INVALID";
    case PIF_FULL: return "PIF_FULL";
    case PIF_NO_MEMORY: return "PIF_NO_MEMORY";
    default: return "?";
    }
}

/* What became of an event (enum pif_what). */
PIF_NODISCARD
static inline const char *pif_what_name(uint32_t what)
{
    switch (what) {
    case PIF_NOTHING: return "PIF_NOTHING";
    case PIF_BEGUN: return "PIF_BEGUN";
    case PIF_WENT: return "PIF_WENT";
    case PIF_WAITS: return "PIF_WAITS";
    case PIF_ANSWERED: return "PIF_ANSWERED";
    case PIF_ENDED: return "PIF_ENDED";
    case PIF_TICKED: return "PIF_TICKED";
    case PIF_REFUSED: return "PIF_REFUSED";
    case PIF_UNNAMED: return "PIF_UNNAMED";
    default: return "?";
    }
}

/* Why an event was refused (enum pif_refusal). */
PIF_NODISCARD
static inline const char *pif_refusal_name(uint32_t refusal)
{
    switch (refusal) {
    case PIF_NO_SUCH: return "PIF_NO_SUCH";
    case PIF_DEAD: return "PIF_DEAD";
    case PIF_BUSY: return "PIF_BUSY";
    case PIF_IDLE: return "PIF_IDLE";
    case PIF_PAST: return "PIF_PAST";
    default: return "?";
    }
}

/* CALLS */

enum pif_kind_of_call {
    PIF_LOCK = 1,
    PIF_TRYLOCK = 2,
    PIF_UNLOCK = 3,
    PIF_CONSISTENT = 4,
    PIF_TIMEDLOCK = 5,
    PIF_WAIT = 6,
    PIF_TIMEDWAIT = 7,
    PIF_SIGNAL = 8,
    PIF_BROADCAST = 9,
    PIF_SETPRIO = 10
};

/* A call, with what it names. What a call doesn't name is not looked at. The functions below write it. */
typedef struct pif_request {
    uint32_t call; /* enum pif_kind_of_call */
    uint32_t mutex;
    uint32_t cond;
    uint32_t thread; /* whose priority PIF_SETPRIO sets */
    uint32_t prio;   /* 1 to 99; another is answered PIF_EINVAL */
    uint32_t deadline;
} pif_request;

PIF_NODISCARD
static inline pif_request pif_request_of(uint32_t call, uint32_t mutex, uint32_t cond, uint32_t deadline)
{
    pif_request request;
    request.call = call;
    request.mutex = mutex;
    request.cond = cond;
    request.thread = 0;
    request.prio = 0;
    request.deadline = deadline;
    return request;
}

/* pthread_mutex_lock */
PIF_NODISCARD
static inline pif_request pif_lock(uint32_t mutex) { return pif_request_of(PIF_LOCK, mutex, 0, 0); }

/* pthread_mutex_trylock */
PIF_NODISCARD
static inline pif_request pif_trylock(uint32_t mutex) { return pif_request_of(PIF_TRYLOCK, mutex, 0, 0); }

/* pthread_mutex_unlock */
PIF_NODISCARD
static inline pif_request pif_unlock(uint32_t mutex) { return pif_request_of(PIF_UNLOCK, mutex, 0, 0); }

/* pthread_mutex_consistent */
PIF_NODISCARD
static inline pif_request pif_consistent(uint32_t mutex) { return pif_request_of(PIF_CONSISTENT, mutex, 0, 0); }

/* pthread_mutex_timedlock: waits only until the time is at least the deadline (pif_tick) */
PIF_NODISCARD
static inline pif_request pif_timedlock(uint32_t mutex, uint32_t deadline)
{
    return pif_request_of(PIF_TIMEDLOCK, mutex, 0, deadline);
}

/* pthread_cond_wait */
PIF_NODISCARD
static inline pif_request pif_wait(uint32_t cond, uint32_t mutex) { return pif_request_of(PIF_WAIT, mutex, cond, 0); }

/* pthread_cond_timedwait */
PIF_NODISCARD
static inline pif_request pif_timedwait(uint32_t cond, uint32_t mutex, uint32_t deadline)
{
    return pif_request_of(PIF_TIMEDWAIT, mutex, cond, deadline);
}

/* pthread_cond_signal */
PIF_NODISCARD
static inline pif_request pif_signal(uint32_t cond) { return pif_request_of(PIF_SIGNAL, 0, cond, 0); }

/* pthread_cond_broadcast */
PIF_NODISCARD
static inline pif_request pif_broadcast(uint32_t cond) { return pif_request_of(PIF_BROADCAST, 0, cond, 0); }

/* pthread_setschedprio */
PIF_NODISCARD
static inline pif_request pif_setprio(uint32_t thread, uint32_t prio)
{
    pif_request request = pif_request_of(PIF_SETPRIO, 0, 0, 0);
    request.thread = thread;
    request.prio = prio;
    return request;
}

/* A CORE */

/* Has an empty handle hold a new core, to which nothing was added, under these limits: 1 to 1024 threads ever, up to
   1024 mutexes, up to 256 condition variables, and 1 to 4294967295 signals and broadcasts together on one variable.
   PIF_OK; or PIF_FULL, PIF_INVALID or PIF_NO_MEMORY, and then the handle holds what it held. No later call on the core
   takes memory. */
PIF_NODISCARD
uint32_t pif_core_new(pif_core *core, uint32_t threads, uint32_t mutexes, uint32_t conds, uint32_t signals);

/* Gives up the core that a handle holds, if it holds one. The handle is empty then, and may be filled again. */
void pif_core_free(pif_core *core);

/* A handle of malloc that holds a new core, under limits as those of pif_core_new. Null if there is none. `*result` is
   PIF_OK, or why there is none: PIF_INVALID or PIF_NO_MEMORY. `result` may be null. */
PIF_NODISCARD
pif_core *pif_core_open(uint32_t threads, uint32_t mutexes, uint32_t conds, uint32_t signals, uint32_t *result);

/* Gives up a handle of pif_core_open with the core that it holds. A null pointer is ignored. */
void pif_core_close(pif_core *core);

/* Adds a thread of this base priority, 1 to 99, with no call open, and answers its number, the next one from 1;
   otherwise PIF_NO_CORE, PIF_BAD_PRIO or PIF_TOO_MANY, and nothing has changed. */
pif_number pif_add_thread(pif_core *core, uint32_t prio);

/* Adds a mutex of this kind (enum pif_kind), free and fine, robust or stalled, and answers its number, the next one
   from 1; otherwise PIF_NO_CORE, PIF_INVALID or PIF_TOO_MANY, and nothing has changed. */
pif_number pif_add_mutex(pif_core *core, uint32_t kind, bool robust);

/* Adds a condition variable that is bound to this mutex, and answers its number, the next one from 1; otherwise
   PIF_NO_CORE, PIF_NO_MUTEX or PIF_TOO_MANY, and nothing has changed. */
pif_number pif_add_cond(pif_core *core, uint32_t mutex);

/* EVENTS */

/* A thread begins a call, and touches no word yet: PIF_BEGUN. Refused by PIF_NO_SUCH, PIF_DEAD or PIF_BUSY. */
pif_seen pif_begin(pif_core *core, uint32_t thread, pif_request request);

/* A thread takes one step of its open call, one access of one word, one call of the kernel or an answer: PIF_WENT,
   PIF_WAITS or PIF_ANSWERED. Refused by PIF_NO_SUCH, PIF_DEAD or PIF_IDLE. */
pif_seen pif_go(pif_core *core, uint32_t thread);

/* A thread makes a whole call: begins it, and goes on until it is answered or waits, within 24 steps: PIF_ANSWERED, or
   PIF_WAITS, which leaves the call open. Refused as by pif_begin. */
pif_seen pif_call(pif_core *core, uint32_t thread, pif_request request);

/* A thread goes on with its open call until it is answered or waits. Refused as by pif_go. */
pif_seen pif_finish(pif_core *core, uint32_t thread);

/* A thread ends, with a call open or not: PIF_ENDED. Refused by PIF_NO_SUCH or PIF_DEAD. */
pif_seen pif_end(pif_core *core, uint32_t thread);

/* The time is this from now on: PIF_TICKED. It is 0 at first, and its unit is yours. Refused by PIF_PAST. */
pif_seen pif_tick(pif_core *core, uint32_t time);

/* READERS: the core is the same afterwards. Each answers PIF_NO_CORE on a handle with no core. A place is a number from
   0; PIF_NONE says that there is nothing at that place. */

/* The effective priority of a thread, 1 to 99: the greatest base priority of it and of all that wait for it through any
   chain. PIF_NONE if no living thread has that number. */
PIF_NODISCARD
pif_number pif_effective(pif_core *core, uint32_t thread);

/* 1 if a thread is blocked, and its deadline, if it has one, isn't reached; 0 if it may take a step. PIF_NONE if no
   living thread has that number, or that thread has no call open. */
PIF_NODISCARD
pif_number pif_waiting(pif_core *core, uint32_t thread);

/* The word of a mutex. PIF_NONE if it was never added. */
PIF_NODISCARD
pif_number pif_word(pif_core *core, uint32_t mutex);

/* The health of a mutex (enum pif_health_of). PIF_NONE if it was never added. */
PIF_NODISCARD
pif_number pif_health(pif_core *core, uint32_t mutex);

/* The condition word of a variable: how often it was signalled and broadcast. PIF_NONE if it was never added. */
PIF_NODISCARD
pif_number pif_cond_word(pif_core *core, uint32_t cond);

/* The thread that runs next: of the ready threads of greatest effective priority the first that joined them. PIF_NONE
   if no thread is ready. */
PIF_NODISCARD
pif_number pif_pick(pif_core *core);

/* The owner of a mutex, also one that has ended, and how often it holds the mutex. PIF_NONE if the mutex is free, or
   was never added. */
PIF_NODISCARD
pif_owned pif_owner(pif_core *core, uint32_t mutex);

/* What a thread does (enum pif_state). PIF_NONE if it was never added. */
PIF_NODISCARD
pif_doing pif_status(pif_core *core, uint32_t thread);

/* The base priority of a thread, 1 to 99: the one with which it was added, or which PIF_SETPRIO gave it last. PIF_NONE
   if no living thread has that number. */
PIF_NODISCARD
pif_number pif_base(pif_core *core, uint32_t thread);

/* The kind of a mutex (enum pif_kind), and 1 if it is robust, 0 if it is stalled. PIF_NONE if it was never added. */
PIF_NODISCARD
pif_number pif_mutex_kind(pif_core *core, uint32_t mutex);
PIF_NODISCARD
pif_number pif_robust(pif_core *core, uint32_t mutex);

/* The mutex to which a condition variable is bound. PIF_NONE if it was never added. */
PIF_NODISCARD
pif_number pif_bound(pif_core *core, uint32_t cond);

/* The waiter that gets a mutex after `place` others, as long as no priority changes and no waiter comes or goes: those
   of greatest effective priority come first, and of equals the first in arrival. */
PIF_NODISCARD
pif_number pif_waiter(pif_core *core, uint32_t mutex, uint32_t place);

/* The thread parked on a condition variable that is woken after `place` others, in the same order. */
PIF_NODISCARD
pif_number pif_parked(pif_core *core, uint32_t cond, uint32_t place);

/* The ready thread that runs after `place` others: at place 0 that of pif_pick. */
PIF_NODISCARD
pif_number pif_ready(pif_core *core, uint32_t place);

/* The time: that of the last tick that was not refused, 0 before the first. */
PIF_NODISCARD
pif_number pif_time(pif_core *core);

/* The thread at a place of the path of waiting from a living thread: at place 0 that thread itself, and after each
   thread the owner of the mutex for which it waits, also one that has ended, up to a thread that waits for no mutex.
   PIF_NONE if the path has no such place, or no living thread has that number. */
PIF_NODISCARD
pif_number pif_path(pif_core *core, uint32_t thread, uint32_t place);

/* How many threads, mutexes and condition variables were ever added. */
PIF_NODISCARD
pif_number pif_threads(pif_core *core);
PIF_NODISCARD
pif_number pif_mutexes(pif_core *core);
PIF_NODISCARD
pif_number pif_conds(pif_core *core);

/* The limits under which the core was made. Each is 0 if `result` isn't PIF_OK. */
typedef struct pif_bounds {
    uint32_t result; /* enum pif_result */
    uint32_t threads;
    uint32_t mutexes;
    uint32_t conds;
    uint32_t signals;
} pif_bounds;

PIF_NODISCARD
pif_bounds pif_limits(pif_core *core);

/* The call that a thread has open, as it was begun. Each of its numbers is 0 if `result` isn't PIF_OK. */
typedef struct pif_opened {
    uint32_t result; /* enum pif_result */
    pif_request request;
} pif_opened;

/* PIF_NONE if the thread has no call open, has ended, or was never added. */
PIF_NODISCARD
pif_opened pif_open_call(pif_core *core, uint32_t thread);

/* THE POSIX MACHINE: what POSIX leaves open is a choice here, which is yours. A core is one implementation of POSIX, and
   answers each call in one way. The machine has all ways that POSIX has, and by rules those that some implementations
   have (docs/JUDGE.md says what each rule is). A machine has threads, mutexes and condition variables of its own. A
   thread begins a call, moves until the call has its result, and is answered. Each move leads to one of some states, of
   which you choose one. What is owed for a handle is owed here, too, and its calls take memory: each may answer
   PIF_NO_MEMORY, or PIF_TOO_MANY if a number passes 32 bits or a move has more than 65536 results. Then nothing has
   changed. PIF_NO_CORE says here that a handle holds no machine. */

/* A handle. Its fields are the library's. `pif_machine machine = {0};` holds no machine. */
typedef struct pif_machine {
    void *at;
    bool full;
} pif_machine;

/* By what a thread moves. The numbers from 1 on are rules, in the order in which they are told. A machine by itself moves
   as if it allowed no rule. By a rule there are the moves of the machine by itself first, and behind them those of the
   rule, if the machine allows it. */
enum pif_by {
    PIF_ITSELF = 0,
    PIF_STEAL = 1,
    PIF_ANY_WAITER = 2,
    PIF_SPURIOUS = 3,
    PIF_RECURSION = 4,
    PIF_OWN_ERRORCHECK = 5,
    PIF_ANY_CONSISTENT = 6,
    PIF_HELD_WAIT = 7,
    PIF_LOST_SIGNAL = 8,
    PIF_REVIVES = 9,
    PIF_BARGE = 10,
    PIF_CYCLE_WAITS = 11,
    PIF_CYCLE_REFUSED = 12,
    PIF_TIMEOUT_CONSUMES = 13,
    PIF_ENDS_APART = 14,
    PIF_STAYS_LOCKED = 15,
    PIF_REBINDS = 16,
    PIF_MORE_USES = 17,
    PIF_REFUSES_SETPRIO = 18,
    PIF_CONSISTENT_BY_ANY = 19,
    PIF_CUT_UNLOCK = 20,
    PIF_OTHER_ERROR = 21,
    PIF_WAIT_GIVES_ALL = 22
};

/* The same for any rule: of the machine by itself, and of all rules that it allows, in this order. */
#define PIF_ANY UINT32_C(0xffffffff)

/* Has an empty handle hold a new machine, which allows no rule and to which nothing was added, under these limits, which
   may be any numbers. PIF_OK; or PIF_FULL or PIF_NO_MEMORY, and then the handle holds what it held. */
PIF_NODISCARD
uint32_t pif_machine_new(pif_machine *machine, uint32_t threads, uint32_t mutexes, uint32_t conds, uint32_t signals);

/* Gives up the machine that a handle holds, if it holds one. The handle is empty then, and may be filled again. */
void pif_machine_free(pif_machine *machine);

/* A handle of malloc that holds a new machine, which allows the rules that these words name, with blanks between them,
   as "posix" or "spurious barge". Null if there is none: then `*result` is PIF_INVALID, if a word names no rule, or
   PIF_NO_MEMORY. Else it is PIF_OK. A null pointer for `result` leaves that out. */
PIF_NODISCARD
pif_machine *pif_machine_open(uint32_t threads, uint32_t mutexes, uint32_t conds, uint32_t signals, const char *rules,
                              uint32_t *result);

/* Gives up a handle of pif_machine_open with the machine that it holds. A null pointer is passed over. */
void pif_machine_close(pif_machine *machine);

/* The machine allows the rules that a word names, beside those that it allows: a rule, as `steal` or
   `recursion=1..300`, `posix` for all that POSIX leaves open, or `all`. PIF_OK; or PIF_INVALID if it names none. */
uint32_t pif_machine_allow(pif_machine *machine, const uint8_t *word, size_t word_length);

/* As pif_add_thread, pif_add_mutex and pif_add_cond. A mutex inherits, or is one of PTHREAD_PRIO_NONE, if `inherits` is
   false: who waits for that lends its owner no priority, and a cycle through it is no answer EDEADLK. */
pif_number pif_machine_add_thread(pif_machine *machine, uint32_t prio);
pif_number pif_machine_add_mutex(pif_machine *machine, uint32_t kind, bool robust, bool inherits);
pif_number pif_machine_add_cond(pif_machine *machine, uint32_t mutex);

/* A thread begins a call, and nothing else happens: PIF_OK. PIF_NONE if it can't: the thread was never added, has ended,
   or has a call open, or the call names what was never added. PIF_INVALID if a number names nothing. */
PIF_NODISCARD
uint32_t pif_machine_begin(pif_machine *machine, uint32_t thread, pif_request request);

/* How many states there are to which a move of a thread leads (enum pif_by). By the machine itself 0 if the thread has no
   call open, waits, or has its result; PIF_INVALID if a number names nothing. */
PIF_NODISCARD
pif_number pif_machine_moves(pif_machine *machine, uint32_t thread, uint32_t by);

/* A thread moves, to the state at this place of those, from 0: PIF_OK. PIF_NONE if there are so few. */
PIF_NODISCARD
uint32_t pif_machine_move(pif_machine *machine, uint32_t thread, uint32_t by, uint32_t place);

/* What the open call of a thread is answered (enum pif_answer), once it has its result. PIF_NONE if it has none yet. */
PIF_NODISCARD
pif_number pif_machine_result(pif_machine *machine, uint32_t thread);

/* The open call of a thread is answered, and closes: its answer. PIF_NONE if it has no result yet, or if it is a wait that
   has to take holds again first, by a move of PIF_WAIT_GIVES_ALL. */
PIF_NODISCARD
pif_number pif_machine_answer(pif_machine *machine, uint32_t thread);

/* How many states there are to which the end of a thread leads, at one moment, with a call open or not: several by
   `barge` and `stays_locked`, for its robust mutexes. PIF_INVALID if the number names nothing. */
PIF_NODISCARD
pif_number pif_machine_ends(pif_machine *machine, uint32_t thread);

/* A thread ends, and leads to the state at this place of those: PIF_OK. PIF_NONE if there are so few. */
PIF_NODISCARD
uint32_t pif_machine_end(pif_machine *machine, uint32_t thread, uint32_t place);

/* The same for one step of an end by the rule `ends_apart`: the thread lives no more, and behind that each of its robust
   mutexes passes on by a step. None without the rule, and once all have. */
PIF_NODISCARD
pif_number pif_machine_ends_apart(pif_machine *machine, uint32_t thread);
PIF_NODISCARD
uint32_t pif_machine_end_apart(pif_machine *machine, uint32_t thread, uint32_t place);

/* The time is this from now on: PIF_OK. PIF_NONE if that would set it back. */
PIF_NODISCARD
uint32_t pif_machine_tick(pif_machine *machine, uint32_t time);

/* As pif_owner, pif_health, pif_status and pif_effective. A thread is PIF_PARKED as long as it is blocked on a variable,
   and PIF_QUEUED while it is among the waiters of a mutex. */
PIF_NODISCARD
pif_owned pif_machine_owner(pif_machine *machine, uint32_t mutex);
PIF_NODISCARD
pif_number pif_machine_health(pif_machine *machine, uint32_t mutex);
PIF_NODISCARD
pif_doing pif_machine_status(pif_machine *machine, uint32_t thread);
PIF_NODISCARD
pif_number pif_machine_effective(pif_machine *machine, uint32_t thread);

/* 1 if a thread's open call has had no effect, and POSIX leaves undefined what it does, 0 if not: it unlocks a mutex or
   waits with one that it doesn't own, where no error is told, waits with another mutex than those that are blocked on the
   variable, or sets the priority of a thread that has ended. */
PIF_NODISCARD
pif_number pif_machine_undefined(pif_machine *machine, uint32_t thread);

/* CHOOSING: who goes next when threads go one at a time, which schedule is visited next when each is tried, and whether
   all stand still. No handle is used, and no memory taken: any number of threads may call these at once. */

/* A thread that can go, and its rank. */
typedef struct pif_candidate {
    uint32_t thread;
    uint64_t rank; /* of pif_choose_ranked */
} pif_candidate;

/* Who goes next, of those that can go; PIF_NONE exactly if there are none. The present thread goes on if it can; else the
   next one by number goes, or the first if there is none. Or the one at the place of a number that was drawn goes,
   counted round. Or the first of those of the greatest rank does. */
PIF_NODISCARD
pif_number pif_choose_staying(uint32_t present, const pif_candidate *can, size_t can_length);
PIF_NODISCARD
pif_number pif_choose_drawn(uint32_t number, const pif_candidate *can, size_t can_length);
PIF_NODISCARD
pif_number pif_choose_ranked(const pif_candidate *can, size_t can_length);

/* What an option counts towards the bounds of a search, or these bounds. */
typedef struct pif_counts {
    uint32_t preemptions;
    uint32_t ends;
    uint32_t wakes;
} pif_counts;

/* A point of a run: how many options there were, and the place of the one that was chosen, from 0. */
typedef struct pif_point {
    size_t options;
    size_t chosen;
} pif_point;

/* Where a schedule leaves the one before it: so many choices are kept, then the option at this place is chosen, and the
   first option of each point behind that. */
typedef struct pif_change {
    uint32_t result; /* enum pif_result */
    size_t kept;
    size_t option;
} pif_change;

/* The schedule that comes next in a depth-first search of all that count no more than the bound, behind that of a run:
   its points, and the options of all of them in a row, each with what it counts. PIF_NONE if there is no further one. A
   search begins with the run that has the first option of each point, which has to count nothing. If the program does
   the same after the same choices, each schedule is visited once. */
PIF_NODISCARD
pif_change pif_choose_next(const pif_counts *bound, const pif_point *points, size_t points_length,
                           const pif_counts *options, size_t options_length);

/* What a thread does at a point. */
typedef struct pif_standing {
    uint32_t thread;
    uint32_t mutex;  /* for which it waits; 0: for none */
    uint32_t owner;  /* who holds that; 0: nobody does */
    bool goes;       /* it can go */
    bool is_timed;   /* it can once its deadline is reached */
    bool is_outside; /* it can once something comes from outside of the program */
    bool wants_lock; /* it wants a lock, of a mutex or of another kind */
} pif_standing;

/* 1 if this is a deadlock: no thread can go, now or later, and one of them wants a lock. Else 0. */
PIF_NODISCARD
uint32_t pif_choose_is_deadlock(const pif_standing *standings, size_t standings_length);

/* A link of a chain: a thread waits for a mutex, which the owner holds. */
typedef struct pif_link {
    uint32_t thread;
    uint32_t mutex;
    uint32_t owner;
} pif_link;

/* Writes the chain from a thread to the start of a room: each link begins with the owner of the one before. It ends at a
   thread that waits for nobody, when it comes back to the first thread, or when the room is full. How many links it has. */
PIF_NODISCARD
size_t pif_choose_chain(const pif_standing *standings, size_t standings_length, uint32_t first, pif_link *room,
                        size_t room_length);

/* TEXTS: bytes in, bytes out. No handle is used: any number of threads may call these at once, if your malloc allows
   that. A text is written to the start of the room if all of it fits, and no other byte of the room changes. Otherwise
   the room stays as it is. */

/* How a job ended. The text that is written says more. */
enum pif_ended_by {
    PIF_WHOLE = 0,         /* the text was read to its end; a history is legal; no claim of a program is broken */
    PIF_FAULT = 1,         /* a line is no command, is not allowed there, has limits out of range, is too long or cut
                              off; or the text is too large */
    PIF_DIFFERS = 2,       /* a line has another answer than the core gives; a history is illegal at a line; a claim is
                              broken */
    PIF_OUT_OF_MEMORY = 3, /* malloc refused a request */
    PIF_UNWRITTEN = 4,     /* malloc refused room for the text that is to be written, which is cut */
    PIF_UNREAD = 5,        /* does not happen */
    PIF_UNDECIDED = 6,     /* of a history: it gave up at a line, and nothing is claimed. Of a program: it gave up, and
                              found no claim that is broken */
    PIF_INTERRUPTED = 7,   /* its seconds were over, or `goes_on` said no (pif_options): there is no text, `wanted` is
                              0, and what the room has means nothing */
    PIF_MISTAKE = 8        /* of a history: a line is a mistake of the log: the lines before it, all legal, refuse it */
};

typedef struct pif_text {
    uint32_t ended; /* enum pif_ended_by */
    size_t wanted;  /* how many bytes the text has. If the room is smaller nothing was written: ask with more */
} pif_text;

/* Runs a script, and writes what `pif run` prints. */
PIF_NODISCARD
pif_text pif_run(const uint8_t *script, size_t script_length, uint8_t *room, size_t room_length);

/* Replays a trace, and writes what `pif replay` prints. */
PIF_NODISCARD
pif_text pif_replay(const uint8_t *trace, size_t trace_length, uint8_t *room, size_t room_length);

/* Checks a story under this name, and writes what `pif check` prints. */
PIF_NODISCARD
pif_text pif_check(const uint8_t *name, size_t name_length, const uint8_t *story, size_t story_length, uint8_t *room,
                   size_t room_length);

/* Judges a history, and writes what `pif judge --plain` prints: whether some run of the POSIX machine shows its lines.
   It gives up at a line for which it would make more than `states` states, as with --states; `pif judge` has 200000
   without it, and takes 1 to 16777216. Here any number may be given, and 0 allows no state. It also gives up at a
   broadcast that has more than 65536 choices of whom it wakes, which are made at once. If `witness` is true, a run that
   shows a legal history is written after it, as with --witness. */
PIF_NODISCARD
pif_text pif_judge(const uint8_t *history, size_t history_length, uint32_t states, bool witness, uint8_t *room,
                   size_t room_length);

/* Looks for the fewest rules of what POSIX leaves open with which a history is legal, and writes what
   `pif judge --allow posix --least` prints. Of each set of them at most so many states are made for a line. */
PIF_NODISCARD
pif_text pif_least(const uint8_t *history, size_t history_length, uint32_t states, uint8_t *room, size_t room_length);

/* Explores a small program that locks, in all interleavings, and writes what `pif explore` prints; with a schedule for
   each outcome, as with --witness, if that is true. It gives up if there are more than `states` states: PIF_UNDECIDED.
   PIF_DIFFERS says that a claim of the program is broken. */
PIF_NODISCARD
pif_text pif_explore(const uint8_t *program, size_t program_length, uint32_t states, bool witness, uint8_t *room,
                     size_t room_length);

/* Shows a story, or a script: each command, its answer, and what has changed in the core by it, or all of the core if
   `all` is true. Writes what `pif show` prints, which is for reading and may change with any version. */
PIF_NODISCARD
pif_text pif_show(const uint8_t *story, size_t story_length, bool all, uint8_t *room, size_t room_length);

/* The same for programs, as docs/FORMATS.md has it: what `pif show --json` prints, the state after each command as a
   line of JSON, and what `pif show --dot` prints, who waits for whom at the end, for Graphviz. For a story with a fault
   nothing is written. */
PIF_NODISCARD
pif_text pif_show_json(const uint8_t *story, size_t story_length, uint8_t *room, size_t room_length);

PIF_NODISCARD
pif_text pif_show_dot(const uint8_t *story, size_t story_length, uint8_t *room, size_t room_length);

/* What is shown of a story. */
enum pif_shown {
    PIF_CHANGES = 0, /* as by pif_show: what each command changes */
    PIF_ALL = 1,     /* and all of the core after it */
    PIF_JSON = 2,    /* as by pif_show_json */
    PIF_DOT = 3      /* as by pif_show_dot */
};

/* OPTIONS: `pif_options how = {sizeof how};` stands for what is usual, and so does a null pointer. A later version may
   append more of them, which a program that was compiled with this header doesn't have. */
typedef struct pif_options {
    uint32_t size;             /* sizeof(pif_options) */
    uint32_t states;           /* of pif_judge, pif_least and pif_explore; 0: as many as the program allows */
    uint32_t seconds;          /* the job is stopped after so many; 0: it isn't */
    uint32_t witness;          /* 1: as of pif_judge and pif_explore */
    uint32_t least;            /* 1: of a history, as by pif_least, with no run */
    uint32_t shown;            /* of a story (enum pif_shown); another number is as PIF_CHANGES */
    bool (*goes_on)(void *to); /* the job is stopped once this answers false; null: it isn't */
    void *to;                  /* what is handed to it */
} pif_options;

enum { PIF_JUDGE_STATES = 200000, PIF_EXPLORE_STATES = 1000000 };

/* As pif_judge or pif_least, pif_explore and pif_show, by options. They are C over these, in libpif. Whether the job
   goes on is asked when it asks for memory, at the first request and each 64th after it: many times a second. `goes_on`
   is called in the thread of the job. It may call this library, and has to return. */
PIF_NODISCARD
pif_text pif_judge_with(const uint8_t *history, size_t history_length, const pif_options *how, uint8_t *room,
                        size_t room_length);

PIF_NODISCARD
pif_text pif_explore_with(const uint8_t *program, size_t program_length, const pif_options *how, uint8_t *room,
                          size_t room_length);

PIF_NODISCARD
pif_text pif_show_with(const uint8_t *story, size_t story_length, const pif_options *how, uint8_t *room,
                       size_t room_length);

/* TEXTS FOR A SINK: as the functions above, but what is written goes to a function of yours, whole, before they return.
   Nothing goes there if that is the empty text, or if malloc refused the room for it: PIF_UNWRITTEN. They are C over
   the functions above, in libpif. */

/* Takes the bytes of a text, a piece at a time. `to` is the pointer that was handed in with it. */
typedef void pif_sink(void *to, const char *text, size_t length);

PIF_NODISCARD
pif_text pif_run_to(const uint8_t *script, size_t script_length, pif_sink *sink, void *to);

PIF_NODISCARD
pif_text pif_replay_to(const uint8_t *trace, size_t trace_length, pif_sink *sink, void *to);

PIF_NODISCARD
pif_text pif_check_to(const uint8_t *name, size_t name_length, const uint8_t *story, size_t story_length,
                      pif_sink *sink, void *to);

PIF_NODISCARD
pif_text pif_show_to(const uint8_t *story, size_t story_length, const pif_options *how, pif_sink *sink, void *to);

PIF_NODISCARD
pif_text pif_judge_to(const uint8_t *history, size_t history_length, const pif_options *how, pif_sink *sink, void *to);

PIF_NODISCARD
pif_text pif_explore_to(const uint8_t *program, size_t program_length, const pif_options *how, pif_sink *sink,
                        void *to);

#ifdef __cplusplus
}
#endif

#endif
