/* What all parts of libschedule share: the program's threads, of which one at a time has the turn, and what they wait
   for. All but the turn itself is read and written by the thread that has the turn. */
#ifndef PIF_SCHEDULE_LIBRARY_H
#define PIF_SCHEDULE_LIBRARY_H

#include "../../common/common.h"
#include "pif.h"

enum { MOST_THREADS = 1024, MOST_MUTEXES = 1024, MOST_VARIABLES = 256 };
enum { MOST_OF_CHOICE = 1 << 14, MOST_OF_REASON = 400, MOST_OF_NAME = 300 }; /* bytes */
enum { MOST_WAYS = 256, MOST_OF_WAY = 40 };
enum { MOST_IDLE = 2 }; /* calls in a row that find nothing to do, before another thread goes first */

/* How the library ends a run. */
typedef enum {
    DEADLOCK,
    LOST_WAKE_UP, /* nobody can go, and a thread waits on a variable that was signalled when nobody waited */
    STUCK,        /* nobody can go, for another reason */
    MISUSE,       /* a call that POSIX leaves undefined, or that is answered by an error of its caller */
    LIVELOCK,     /* more points than the run may have */
    DIVERGED,     /* the schedule doesn't fit the program */
    LIMIT,        /* more of something than there may be */
    UNSUPPORTED,  /* a call that can't be scheduled */
    RACE,         /* of plain memory */
    VERDICTS,
} Verdict;

typedef enum { RANDOM, PCT, PICK, STAY, STRATEGIES } Strategy;

/* What the tool asks of a run. */
typedef struct {
    uint64_t strategy, seed;
    uint64_t depth, length; /* of PCT: the depth of bugs, and the points that a run is thought to have */
    uint64_t ends;          /* how many threads may stop for good */
    uint64_t time;          /* the time moves at one of so many points; 0: only if nobody can go */
    uint64_t steps;         /* the most points */
    uint64_t inherit;       /* each mutex is taken as one that inherits */
    uint64_t errors;        /* an error that POSIX names is answered, and no misuse */
    uint64_t each;          /* points with one choice have a line, too, as long as a thread may stop */
    uint64_t loose;         /* choices are found by thread and its own count; those that don't fit are left out */
    uint64_t whole;         /* no choice may come behind those that were given */
    uint64_t story;         /* the events of the core are told */
    uint64_t memory;        /* each access of memory is a point, too */
    uint64_t races;         /* then a race is no verdict */
    uint64_t posix;         /* the POSIX machine answers, and not the core */
    uint64_t spurious;      /* how many wake-ups there may be that nobody has caused */
} Options;

/* glibc's call of the same name, which is looked for once. */
#define FOUND_BELOW(call, find) \
    ({ \
        static __typeof__(&call) found; \
        if (__atomic_load_n(&found, __ATOMIC_RELAXED) == NULL) \
            __atomic_store_n(&found, (__typeof__(&call))find(#call), __ATOMIC_RELAXED); \
        __atomic_load_n(&found, __ATOMIC_RELAXED); \
    })
#define BELOW(call) FOUND_BELOW(call, below)
#define NEW_BELOW(call) FOUND_BELOW(call, new_below)

typedef struct Thread Thread;
typedef struct Clock Clock;

/* Whether a thread can go on, by what it waits for outside of the core. It may be asked at any choice. */
typedef bool Condition(const Thread *);

struct Thread {
    uint32_t number; /* of the core or the machine, from 1 */
    _Atomic int turn;
    bool gone;    /* it has ended, or has stopped for good */
    bool passes;  /* then robust mutexes of it have to pass on yet, one by one */
    bool stopped; /* it has stopped for good, since the tool said so */
    bool joined, detached, in_call;
    uint32_t idle, was_idle; /* how often in a row calls of it found nothing to do: with this call, and before it */
    bool yields;         /* that was too often: another thread goes first */
    bool open;           /* a call of the core or the machine is open, and waits */
    bool is_inside;      /* it was, when a signal's handler began that it is in */
    bool asks_the_kernel; /* what it waits for may come from outside of the program */
    bool is_timed;
    uint32_t deadline; /* in microseconds of the run's time, if it is timed */
    uint32_t wants;    /* a mutex for which it waits outside of the core */
    bool wants_lock;   /* it waits for a lock that the core hasn't got */
    uint32_t count;    /* of its own points */
    uint32_t seen;     /* what it saw when it began to wait */
    Condition *can_go; /* NULL: it waits for nothing outside of the core */
    const void *waits_for;
    const char *waits_how;
    const char *call; /* the one it makes or made last */
    uintptr_t caller; /* where that returns to */
    uint64_t rank;    /* of PCT: the greatest goes */
    int priority, rounds; /* the base priority; rounds of the keys' destructors */
    const volatile void *last_read; /* the last access of memory */
    uint8_t last_value;
    uint32_t same; /* how often in a row it read that, and found the same */
    uint64_t signals; /* sent to it, one bit each, while it waits for them */
    _Atomic uint64_t caught; /* likewise those whose handlers it has to run */
    uint64_t blocked;        /* likewise those that it doesn't take */
    uint32_t handled;        /* how many handlers it has run */
    _Atomic bool is_back;    /* from a call that it made outside of the schedule */
    pthread_t name;
    void *(*start)(void *);
    void *argument;
};

/* libschedule.c: the run, and whose it is */
extern Options options;
extern bool keeps_time;                            /* the run's, and not the machine's */
Thread *enter(const char *call, uintptr_t caller); /* NULL: this process isn't scheduled */
Thread *enter_if_on(const char *call, uintptr_t caller);
void leave(Thread *);
bool is_on(void);
void hide_variable(const char *name); /* of the environment: what is started then finds none of that name */

/* server.c */
void serve(void); /* returns in a process of its own for each run */

/* asked.c: what the tool asks */
typedef enum { CHOOSE_THREAD, CHOOSE_END, CHOOSE_TIME, CHOOSE_WAKE, CHOOSE_WAY } Kind;

/* A line `20 t1.5 > t2 of t1 t2 at sem_wait`: at point 20, the fifth of t1's own and in that call, t2 goes, of those
   that can. In place of `> t2` stands `end t2` if t2 stops for good, `time` if the time moves, and `wake t2` if t2 wakes
   by itself. `by barge of itself barge` says in which way a call goes on, of those that there are. */
typedef struct {
    const char *line, *way;
    uint32_t chooser, count, thread;
    Kind kind;
    bool is_used;
} Choice;

bool read_asked(const char *file);
const char *allowed_rule(size_t place); /* of those that are choices beside the tool's own; NULL: there are no more */
const Choice *asked_choice(Kind, const char *line, const Thread *chooser);
const char *next_line(void);

/* told.c: what the tool is told. It is in memory that outlives the process. */
bool open_told(const char *folder);
bool take_told(void); /* this process is the first that wants to be scheduled */
void tell_points(uint64_t points, bool is_switch);
void tell_choice(const char *line);
void tell_fork(void);
void tell_access(void); /* of memory */
void tell_outside(const char *call);
void tell_exit(void);
void tell_verdict(Verdict, const char *reason);
void tell_reason(const char *format, ...) __attribute__((format(printf, 1, 2)));
void tell_event(const char *format, ...) __attribute__((format(printf, 1, 2)));
void tell_call(const Thread *, const char *how, const pif_request *, pif_seen);
void tell_begin(const Thread *, const pif_request *);
void end_run(void) __attribute__((noreturn));

/* turns.c */
extern Thread *running;
bool can_go(const Thread *);
void point(Thread *);                       /* another thread may go first */
void wait_in_call(Thread *);                /* its call of the core or the machine waits */
void wait_until(Thread *, Condition *, const void *on, const char *how);
bool wait_or_handle(Thread *, Condition *, const void *on, const char *how); /* false: a handler has run before */
void leave_turn(Thread *);                  /* this one goes outside, and another one goes, if one can */
void come_back(Thread *);
void first_turn(Thread *);                  /* of a new thread */
void last_turn(Thread *);                   /* of one that ends */
void find_nothing(Thread *);                /* its call found nothing to do, as in a loop that waits for others */

/* A way in which a call goes on: a move of a thread by the POSIX machine itself or by a rule, and which of them. */
typedef struct {
    uint32_t thread, by, place;
    char name[MOST_OF_WAY];
} Way;

typedef struct {
    Way at[MOST_WAYS];
    uint32_t count, of; /* the thread whose call or end it is */
} Ways;

uint32_t choose_way(Thread *, const Ways *);

/* strategies.c */
typedef struct {
    Thread *at[MOST_THREADS];
    uint32_t count;
} Threads;
void begin_strategy(void);
uint32_t draw_below(uint32_t);
void rank_new(Thread *);
void rank_last(Thread *);
Thread *choose_named(const Threads *, uint32_t number);
Thread *choose_by_strategy(const Threads *, Thread *present, uint64_t point);

/* verdicts.c: each ends the run */
void nobody_can_go(void) __attribute__((noreturn));
void tell_deadlock(Thread *) __attribute__((noreturn)); /* of a thread that wants a mutex, or waits for good */
void stop(Verdict, const char *format, ...) __attribute__((noreturn, format(printf, 2, 3)));
void misuse(const Thread *, const char *format, ...) __attribute__((noreturn, format(printf, 2, 3)));

const char *object_name(uintptr_t address); /* as those of symbols.c */
const char *call_name(uintptr_t returns_to);

/* clock.c: the run's time, which moves if nobody can go, and a little at each look */
uint32_t microseconds(void);
void catch_up(void); /* the time of what answers is the run's */
bool move_to_deadline(void); /* the least one that anybody waits for; false: nobody does */
bool is_due(const Thread *);
bool waits_for_time(const Thread *);
void set_deadline(Thread *, clockid_t, const struct timespec *);
void set_timeout(Thread *, uint64_t microseconds);

/* threads.c */
extern Thread threads[MOST_THREADS + 1]; /* by number */
extern uint32_t thread_count;
extern Threads living;
extern uint32_t stopped_count; /* those that have stopped for good */
extern uint32_t ended_count;   /* those that have ended */
bool begin_threads(void);
Thread *this_thread(void);
Thread *thread_named(pthread_t);
void stop_thread(Thread *); /* for good */

/* processors.c: the run's threads are on one, unless the program asks for others */
void share_processor(void);
void leave_processor(void); /* a child of a fork has all of the run's */
void take_processors(void); /* a program that was started has all of the tool's */

/* handlers.c: of signals */
static inline uint64_t bit_of_signal(int signal) { return UINT64_C(1) << (signal - 1); }
void begin_handlers(Thread *first);
void run_handlers(Thread *);              /* those of signals that it has caught */
bool has_caught(Thread *, int signal);    /* false: the kernel has to be told of it */

/* memory.c: what happens before what, of which races of memory are told */
void pass_order(const Thread *, const volatile void *on); /* what it did comes before what those do who take it */
void take_order(const Thread *, const volatile void *on);
void forget_stack(const Thread *);

/* answering.c: what the core, or the POSIX machine, answers and shows */
#define CHOSEN_RULES "spurious", "barge", "any_waiter", "cycle_waits", "ends_apart", "timeout_consumes"
extern pif_machine machine;
bool make_core(void);
bool make_machine(void);
pif_number add_thread(uint32_t priority);
pif_number add_mutex(uint32_t kind, bool is_robust, bool inherits);
pif_number add_variable(uint32_t mutex);
pif_doing doing_of(uint32_t thread);
pif_owned owner_of(uint32_t mutex);
bool is_as_new(uint32_t mutex);
uint32_t priority_of(uint32_t thread);
pif_number picked(void);
bool may_go_on(uint32_t thread);
void set_time(uint32_t);
void end_of_thread(Thread *);
int ask(Thread *, pif_request);
int ask_for_lock(Thread *, pif_request); /* a cycle is no answer, but a deadlock, or a wait until a deadline */
bool has_deadline(uint32_t mutex, const Thread *);
bool closes_cycle(const Thread *, uint32_t mutex);

/* core.c: calls that the core answers */
int ask_core(Thread *, pif_core *, pif_request);
int ask_core_for_lock(Thread *, pif_request);

/* machine.c: calls that the POSIX machine answers */
int ask_machine(Thread *, pif_request);
bool can_move(uint32_t thread);
bool can_wake(const Thread *);
void wake(const Thread *);
void end_on_machine(Thread *);
void pass_on(Thread *present, Thread *ended);

/* objects.c: the numbers of mutexes and variables */
typedef struct {
    uintptr_t address, first_used;
    uint32_t number;    /* of the core; 0: no wait has bound it yet */
    uint32_t mutex;     /* to which that number is bound */
    uint32_t waiting;   /* threads that are inside a wait */
    uint32_t for_nobody; /* signals and broadcasts when nobody waited */
} Variable;

uint32_t number_of_mutex(const Thread *, pthread_mutex_t *);
bool is_plain(uint32_t mutex); /* POSIX doesn't say what a thread is answered that unlocks it and doesn't hold it */
bool is_waited_on(const Variable *);
Variable *variable_at(const Thread *, pthread_cond_t *);
void bind_variable(const Thread *, Variable *, uint32_t mutex);
const Variable *variable_numbered(uint32_t);
void forget_mutex(const Thread *, pthread_mutex_t *);
void forget_variable(const Thread *, pthread_cond_t *);
const char *name_of_mutex(uint32_t);    /* in brackets with a blank before; empty without one */
const char *name_of_variable(uint32_t);
const char *bracketed(const char *name, const char *before, char *room, size_t size);

#endif
