/* What all parts of librecord share: records of calls, the threads that made them, and mutexes and variables. */
#ifndef PIF_RECORD_LIBRARY_H
#define PIF_RECORD_LIBRARY_H

#include <sys/types.h>

#include "../../common/common.h"

typedef enum {
    CALL_LOCK,
    CALL_TRYLOCK,
    CALL_UNLOCK,
    CALL_CONSISTENT,
    CALL_TIMEDLOCK,
    CALL_WAIT,
    CALL_TIMEDWAIT,
    CALL_SIGNAL,
    CALL_BROADCAST,
    CALL_SETPRIO,
    THREAD_ADDED,
    THREAD_DYING,
    THREAD_ENDED,
    PROCESS_ENDS, /* it does, or is killed; its threads know which of them were alive behind this stamp */
    DETAIL,       /* of a recording in parts: more of the call that this thread begins next */
} What;

/* Why a mutex or a variable is left out, with all calls on it. */
typedef enum {
    KEPT,
    PROTECTED,      /* PTHREAD_PRIO_PROTECT */
    SHARED,         /* between processes, or made by one that isn't recorded */
    UNIDENTIFIED,   /* likewise, and of a shared run: where its memory is from isn't known */
    HELD_AT_FORK,   /* of a shared run: the child's copy of a mutex that its parent had */
    WITH_CANCELLED, /* a thread that was cancelled inside a call used it */
    IN_CALLS,       /* a call on it came inside another call of the same thread */
    WITH_LEFT_OUT,  /* it was used together with one that is left out */
    OF_OTHERS,      /* a variable whose waits are with mutexes that aren't recorded; nothing is said of it */
    REASONS,
} Reason;

/* What else is counted, and said on standard error. */
typedef enum {
    C11_OBJECTS,
    PRIORITIES_IN_CALLS,
    UNKNOWN_THREADS,
    FOREIGN_PRIORITIES,
    COUNTS,
} Count;

/* What passes the recorder by: calls that have no lines in the history, by kind, and what may make such calls. */
typedef enum {
    OF_PLAIN_MUTEXES,   /* without PTHREAD_PRIO_INHERIT, if the others alone are recorded; waits with them, too */
    OF_THEIR_VARIABLES, /* signals and broadcasts */
    OF_PROTECTED,
    OF_SHARED,
    OF_UNIDENTIFIED,
    OF_HELD_AT_FORK,
    OF_CANCELLED,
    OF_CALLS_IN_CALLS,
    OF_LEFT_OUT,
    OF_RWLOCKS,
    OF_SEMAPHORES,
    OF_SPIN_LOCKS,
    OF_BARRIERS,
    OF_ONCE,
    OF_C11_MUTEXES,
    OF_C11_VARIABLES,
    OF_C11_ONCE,
    OF_PRIORITIES,
    OF_POLICIES, /* sched_setscheduler and sched_setparam */
    OF_MISSED,   /* unlocks and initialisations, by what is seen of mutexes */
    DEEP_LIBRARIES,
    OTHER_NAMESPACES,
    KINDS_PASSED,
} Passed;

enum { MOST_OF_NAME = 16, MOST_OF_MARK = 16 };

/* A recorded process of a shared run, from its first record, or from its fork on, to its end or its `execve`. */
typedef struct Process {
    struct Process *next;
    pid_t number, parent;
    uint64_t space;       /* the namespace of these numbers; 0: it isn't known */
    _Atomic bool ended;   /* somebody has seen it */
    _Atomic(char *) maps; /* what was mapped; NULL: it isn't known */
    char name[MOST_OF_NAME];

    /* while the history is written */
    Names *names;
    uint64_t last_place; /* of all its threads */
    uint64_t end_place;  /* the last stamp of its end behind which one of them was alive; 0: there is none */
    bool is_over;        /* it ends, or has ended, by a line of the history */
    bool is_survived;    /* another one may have seen that */
} Process;

/* Where a mutex or variable of a shared run is that several processes may use. */
typedef struct Place {
    struct Place *next;
    uint64_t device, file, offset;
    bool is_segment, is_mutex;
    _Atomic(struct Object *) holds; /* NULL: nobody who is recorded has initialised it */
} Place;

/* A condition variable as the history has it: bound to one mutex. */
typedef struct Variable {
    struct Object *object, *mutex;
    uint32_t number;
    struct Variable *next;      /* the one that it becomes when it is bound anew */
    struct Variable *next_line; /* in the order of their lines */
} Variable;

typedef enum { FINE, INCONSISTENT, UNUSABLE, UNSURE } Health;

/* What stands with a mutex or a variable between two lines, by the lines before alone. */
typedef struct {
    struct Thread *owner; /* NULL: it is free */
    uint32_t count;       /* how often the owner has it */
    uint8_t health;       /* a Health */
    struct Object *bound; /* of a variable: the mutex of its last wait */
    uint32_t waits;       /* open ones */
    uint32_t uses;        /* signals and broadcasts that are open */
    uint64_t woken_up_to; /* the place of its last broadcast's answer: each wait before it may be woken */
    uint32_t woken;       /* those of them that are open */
    uint64_t wakes;       /* signals since then, or since it last had no wait */
    uint64_t returns;     /* waits that were answered 0 since then, and began since then */
    bool is_unsure;       /* whom they woke can't be told by these numbers */
} StandingObject;

/* A mutex or a condition variable of the program, from its initialisation to the next one at this address. */
typedef struct Object {
    int kind;        /* of a mutex: bits of glibc's __kind */
    clockid_t clock; /* of a variable: that of pthread_cond_timedwait */
    _Atomic(Reason) left_out;
    Place *place;     /* NULL: it is of one process */
    Process *process; /* of a shared run: which made it */
    uintptr_t address;
    uintptr_t first_used; /* where a call returns to that used it first; 0: it isn't known */
    StandingObject standing; /* of a recording in parts */
    struct Object *next_standing;
    uint8_t standing_in; /* whose list of those with which something may stand has it */
    uint64_t last_use; /* the place of the last line that names it, of those that are kept */

    /* while the history is written */
    uint32_t number; /* of a mutex; 0: it isn't used */
    struct Object *next_line;
    Variable *first_variable, *last_variable; /* of a variable: what it is in the history, one behind another */
    Variable *variable;                       /* which of them it is at this line; NULL: the first */
    struct Thread *owner;                     /* of a mutex at this line; NULL: nobody, or it isn't known */
    uint64_t owned_since;                     /* the place of the answer by which the owner got it */
    uint32_t takers;                          /* open calls that may give up what another thread owns */
    struct Thread *holder;                    /* of a mutex: who may have it at this line; NULL: nobody */
    uint32_t holds;                           /* so often */
} Object;

/* A call, or what befell a thread. Times are nanoseconds of CLOCK_MONOTONIC, read after the stamp. */
typedef struct {
    _Atomic uint64_t begin_place; /* its place in the order of all stamps, from 1; 0: it isn't stamped yet */
    uint64_t begin_time;
    _Atomic uint64_t answer_place; /* 0: it has no answer */
    uint64_t answer_time;
    union {
        uint64_t deadline;
        int64_t priority;
        uint64_t stamp; /* of PROCESS_ENDS: its place when it was recorded, as threads have it */
    };
    union {
        Object *object;
        struct Thread *named; /* of CALL_SETPRIO, THREAD_ADDED and THREAD_ENDED */
        Process *process;     /* of PROCESS_ENDS; NULL: the only one */
    };
    Object *mutex;         /* of a wait */
    struct Thread *thread; /* which made the call */
    uintptr_t caller;      /* of a recording in parts; 0: it isn't known */
    uint8_t what;          /* a What */
    bool found_free;       /* of a lock: its mutex was free between the begin's stamp and the real call */
    int16_t answer;
    bool bad_time; /* the timespec is none, or its clock: the call is a lock or wait if it isn't answered EINVAL */
    _Atomic bool is_sure;   /* of PROCESS_ENDS: it does end */
    bool takes_from_others; /* while the history is written: it is one of its mutex's takers */
} Record;

/* A begin, an answer, or what befell a thread. */
typedef struct {
    uint64_t place; /* from 1; 0: there is none */
    uint64_t time;  /* of CLOCK_MONOTONIC, in nanoseconds, read after the stamp */
    struct Thread *thread; /* which made it */
    union {
        Object *object;
        struct Thread *named;
        Process *process;
    };
    Object *mutex; /* of a wait */
    union {
        uint64_t deadline;
        int64_t priority;
    };
    uintptr_t caller; /* 0: it isn't known */
    int16_t answer;
    uint8_t what; /* a What */
    bool is_answer, bad_time, found_free;
} Event;

/* The same as a part has it, at its place. Threads and objects have their numbers in the run's file, from 1. */
typedef struct {
    union {
        uint64_t time;
        uint64_t deadline; /* of a detail */
    };
    uint32_t thread, object;
    union {
        struct {
            uint32_t mutex;
            int32_t priority;
        };
        uint64_t caller; /* of a detail */
    };
    int16_t answer;
    uint8_t what;
    bool is_answer, bad_time, found_free;
    _Atomic uint8_t is_there; /* it is published */
} Slot;

/* What stands with a thread between two lines, by the lines before alone. */
typedef struct {
    Event open;            /* the begin of its call that is open; place 0: none is */
    int64_t priority;      /* the last that it was given, if it was given one */
    uint32_t setting;      /* open calls that give it one */
    bool has_priority;
    bool overlaps;         /* one of them began while another one was open */
    bool is_unsure;        /* the last priority that it was given is one of several */
    bool began_as_owner;   /* of an unlock: the thread had the mutex; of a wait: once, and nothing was wrong with it */
    bool is_dying, has_ended;
} StandingThread;

typedef struct Thread {
    struct Thread *next;
    Process *process; /* NULL: what is recorded is in this process's own memory */
    uint32_t room;    /* for so many records */
    _Atomic(Record *) records;
    _Atomic(uintptr_t *) callers; /* with RECORD_WHERE: for each record where its call returns to */
    _Atomic uint32_t used; /* of its records; a signal's handler may take some between two instructions */
    _Atomic int priority;
    _Atomic bool started, never_started, cancelled;
    _Atomic bool is_set; /* a call gives it a priority */
    _Atomic bool in_call;
    _Atomic bool joined;
    _Atomic uint64_t alive_place; /* the last stamp of a PROCESS_ENDS behind which somebody found it alive */
    _Atomic int rounds; /* of the keys' destructors */
    Record present;           /* of a recording in parts: the call that is open */
    uint64_t deadline_of_next; /* in a process that reads one: the detail of the next begin */
    uintptr_t caller_of_next;
    StandingThread standing;
    struct Thread *next_standing;
    uint8_t standing_in;  /* whose list of those with which something may stand has it */
    uint64_t last_use;    /* the place of the last line that names it, of those that are kept; but for its end */
    uint64_t last_call;   /* likewise of the lines of its own calls */
    uint64_t added_place; /* of those places; 0: it was there before them */
    bool is_seen_dying, is_seen_ended; /* at one of them */
    bool is_needed;       /* a history that begins there has it */
    pid_t number_of_kernel;
    char name[MOST_OF_NAME], inherited[MOST_OF_NAME]; /* the kernel's for it: at its end, and at first */
    void *(*start)(void *);
    void *argument;

    /* while the history is written */
    uint32_t number;      /* 0: it has no line there */
    uint64_t last_place;  /* the last at which it was alive */
    uint64_t dying_place; /* behind which its `dying` stands; 0: nowhere */
    uint64_t ended_place;
    bool ends_with_process; /* and not by itself */
    bool is_survived;       /* another one may have seen that it has ended */
    bool has_end;           /* its `end` stands before this line */
    Record *open;      /* the call that is open at this line */
    uint64_t deadline; /* of the open call; 0: none that isn't reached */
    uint32_t waiting_at;
} Thread;

/* Counters that few threads use at once. */
typedef struct {
    _Alignas(64) _Atomic uint64_t of[KINDS_PASSED];
} Shard;

enum { SHARDS = 64, SLOTS_OF_PLACES = 4096, MOST_OF_RUN = 48 };

/* What all recorded processes write, or this one alone. All is 0 at first. */
typedef struct {
    char mark[MOST_OF_MARK];
    _Atomic uint64_t taken; /* bytes behind it */
    _Atomic bool has_call;
    _Atomic uint32_t most_records; /* of the process that came last */
    _Alignas(64) _Atomic uint64_t next_place; /* so many are taken */
    _Alignas(64) _Atomic uint64_t lost_place; /* the first record for which there was no room; 0: there was for all */
    _Atomic(Thread *) threads;
    _Atomic(Process *) processes;
    _Atomic(Place *) places[SLOTS_OF_PLACES];
    _Atomic uint64_t counts[COUNTS], reasons[REASONS];
    Shard shards[SHARDS];

    /* of a recording in parts */
    char name[MOST_OF_RUN];
    _Atomic uint64_t first_part; /* the first that is kept */
    _Atomic uint64_t last_part;  /* the last that was made */
    _Atomic bool has_ended;      /* the program has, in a way that could be seen */
} Run;

/* How large a part is: its head, so many events, and room for what stands before them. Of that room the first bytes are
   on the disk from the beginning, and all before it. */
#ifdef SMALL_PARTS /* for tests */
enum { EVENTS_OF_PART = 128 };
#else
enum { EVENTS_OF_PART = 65536 };
#endif
enum { SIZE_OF_HEAD = 4096, SIZE_OF_STANDING = 1 << 20, PRESENT_OF_STANDING = 1 << 14 };
enum { SIZE_OF_PART = SIZE_OF_HEAD + EVENTS_OF_PART * (int)sizeof(Slot) + SIZE_OF_STANDING };

/* With which thread or object something stands. */
typedef struct {
    Thread *thread; /* NULL: it is of the object */
    Object *object;
    union {
        StandingThread of_thread;
        StandingObject of_object;
    };
} Standing;

/* The head of a part, of which the first line is text. What stands before it is known when all events of the part
   before are published. */
typedef struct {
    char line[MOST_OF_LINE + 8]; /* `part K of RUN` */
    uint64_t number, first_place;
    uint64_t time_before; /* the greatest time before it, in nanoseconds of CLOCK_MONOTONIC */
    uint64_t standing;    /* so many stand behind its events */
    _Atomic bool has_standing;
} Head;

/* The calls of the library below this one. */
typedef struct {
    int (*mutex_init)(pthread_mutex_t *, const pthread_mutexattr_t *);
    int (*mutex_destroy)(pthread_mutex_t *);
    int (*lock)(pthread_mutex_t *);
    int (*trylock)(pthread_mutex_t *);
    int (*timedlock)(pthread_mutex_t *, const struct timespec *);
    int (*clocklock)(pthread_mutex_t *, clockid_t, const struct timespec *);
    int (*unlock)(pthread_mutex_t *);
    int (*consistent)(pthread_mutex_t *);
    int (*cond_init)(pthread_cond_t *, const pthread_condattr_t *);
    int (*cond_destroy)(pthread_cond_t *);
    int (*wait)(pthread_cond_t *, pthread_mutex_t *);
    int (*timedwait)(pthread_cond_t *, pthread_mutex_t *, const struct timespec *);
    int (*clockwait)(pthread_cond_t *, pthread_mutex_t *, clockid_t, const struct timespec *);
    int (*signal)(pthread_cond_t *);
    int (*broadcast)(pthread_cond_t *);
    int (*create)(pthread_t *, const pthread_attr_t *, void *(*)(void *), void *);
    int (*join)(pthread_t, void **);
    void (*exit)(void *) __attribute__((noreturn));
    int (*setschedprio)(pthread_t, int);
    int (*setschedparam)(pthread_t, int, const struct sched_param *);
} Real;

/* librecord.c */
extern Real real;
extern bool inheriting_alone, records_where;
extern uint32_t most_records;
extern _Atomic bool recording;
extern const char *history_file;
void be_ready(void); /* before a call of `real`, or a look at `recording`; it costs nothing the second time */
void take_the_file(void);
void rest(void);
void end_of_program(void); /* of this process; also if its end was said before */
void count(Count);
uint64_t counted(Count);

/* run.c: 0, or the number of an error; EILSEQ: the file is something else */
typedef enum { OWN_RUN, SHARED_RUN, PARTED_RUN } RunKind;
extern Run *run;
int join_run(const char *file);
int make_parted_run(int file);
int read_run(const char *file, RunKind);
extern const Run *watched; /* what its program may still be writing; `run` has copies of what was read of it */
int watch_run(const char *file);
bool is_shared_run(void);
bool is_parted_run(void);
void *take_of_run(size_t size);
extern uint64_t size_of_run;

enum { LINE = 64 };

/* What is taken of a run has a number there; 0: of NULL. */
static inline uint32_t number_in_run(const void *memory)
{
    return memory == NULL ? 0 : (uint32_t)(((uintptr_t)memory - (uintptr_t)run) / LINE);
}

/* What was read may be damaged: NULL, if there is no such thing. */
static inline void *of_run(uint32_t number, size_t size)
{
    uint64_t at = (uint64_t)number * LINE;

    return at < sizeof *run || at > size_of_run - size ? NULL : (char *)run + at;
}

bool may_be_large(uint64_t size);
bool make_present(const void *memory, size_t size); /* false: there is no room in the file */

/* directory.c: the files of a recording in parts */
void read_directory(const char *path);
bool records_in_parts(void); /* it is wanted */
bool open_directory(void);   /* at the first thing that is noted; false: nothing is recorded */
bool is_being_opened(void);
Head *make_part(uint64_t number, int *why); /* mapped; NULL: it can't be made, and `why` is the number of an error */
void drop_part(uint64_t number);
void say_no_part(uint64_t number, int why);

/* parts.c */
extern uint64_t kept_parts;
void publish(uint64_t place, Slot); /* if there is no room the recording ends before it */
uint64_t part_of(uint64_t place);
Slot *slots_of(Head *);
bool read_slot(const Slot *, uint64_t place, Event *); /* false: it is no event */
Standing *standing_of(Head *);

/* standing.c */
extern uint64_t time_before;
void read_standing(void); /* by who reads a recording: what its program had in its lists is none of this one's */
void pass_event(const Event *);
uint64_t count_standing(void);
void tell_standing(Standing *); /* as many */
void take_standing(const Standing *, uint64_t count);
Thread *standing_threads(void);
Object *standing_objects(void);
bool is_wait_as(What);
bool is_use(What);

/* processes.c */
void find_waits(void);
Process *present_process(void); /* NULL: it has no record yet, or the run isn't shared */
Process *the_process(void);
void forget_process(void);
void end_older(void);   /* says the end of what had this process's number before */
void end_process(void); /* before its own end */

/* shared.c */
typedef enum { OWN_MEMORY, SHARED_MEMORY, UNKNOWN_MEMORY } Memory;
void find_maps(void);
Memory memory_at(Table *, uintptr_t address, Place **);

/* others.c */
void find_others(void);

/* passed.c */
void pass_by(Passed);
void pass_by_left_out(Reason);
void forget_passed(void);

/* objects.c: what is at which address. If there is no memory nothing is recorded any more */
extern Table mutexes, variables, threads;
extern bool is_forked; /* of a shared run: this process is a fork, with copies of what its parent had */
bool hold_object(Table *, uintptr_t address, void *);
bool replace_object(Table *, uintptr_t address, void *old, void *new);
bool is_wanted(int kind);
Object *new_object(Reason, uintptr_t address, uintptr_t first_used);
Object *recorded_mutex(pthread_mutex_t *, uintptr_t caller); /* counts the call if it is NULL */
Object *recorded_variable(pthread_cond_t *, uintptr_t caller);
bool is_shared_variable(const pthread_cond_t *); /* of a shared run */
bool leave_out(Object *, Reason);
uint64_t left_out(Reason);
void forget_reasons(void);

/* stamps.c */
uint64_t lost_place(void); /* UINT64_MAX: there was room for all */
void lose(uint64_t place);
uint64_t now(void);
void stop_recording(void);
Record *new_record(Thread *, What);
void stamp_begin(Record *);
Record *begin_call(What, Object *, Object *mutex, uintptr_t caller);
Record *begin_timed(What, Object *, Object *mutex, clockid_t, const struct timespec *, uintptr_t caller);
Record *begin_setprio(Thread *named, int64_t priority, uintptr_t caller);
uintptr_t caller_of(const Record *);
void answer_call(Record *, int answer);
void leave_call(void *record);

/* threads.c */
Thread *this_thread(void);
Thread *this_or_no_thread(void); /* if this one has made no call: one that has no line */
bool note_thread(Thread *maker, What, Thread *); /* false: there was no room for it */
void forget_thread(void); /* in a child: its thread is a new one */
bool make_key(void);

/* history.c */
typedef struct {
    Record **at; /* by place; NULL where nothing is */
    uint64_t cut;
    uint64_t start; /* the first time */
    bool is_late;   /* cut by the time */
    bool no_memory;
    uint32_t mutex_count, variable_count, thread_count;
    Thread **threads; /* those with a line, in the order of their numbers */
    Object *first_mutex, *last_mutex;
    Variable *first_variable, *last_variable;
    Thread **waiting; /* threads with an open deadline that isn't reached */
    uint32_t waiting_count;
    uint64_t least_deadline, greatest_time;
    uint64_t tick; /* the time at this line */
    uint64_t *times;     /* of a long recording: all times, rising, of which each stands as its number */
    uint64_t time_count;
    const char *about;   /* a comment for the first line, or NULL */
    uint64_t passed[KINDS_PASSED + 1]; /* calls whose records aren't there any more, and that have no lines: by kind */
    uint64_t bad_times, refused, unwaited; /* of them: why nobody misses their lines */
    uint64_t missed;     /* answers that a thread got what it owns by all that was seen */
    uint64_t found_free; /* answers that a thread got what it found free, and another one owns by all that was seen */
} History;

bool write_history(void); /* whether it is written */
bool write_collected(History *);
void say_no_history(void); /* what was left out, where nothing else was called */
bool is_call(const Record *);
bool is_begin(const Record *, uint64_t place);
bool is_wait(const Record *);
bool is_written(const Record *);
uint64_t time_at(const Record *, uint64_t place);
uint64_t microseconds_of(const History *, uint64_t time);
uint64_t microseconds_of_deadline(const History *, uint64_t deadline);
uint64_t ticks_of(const History *, uint64_t time);
uint64_t ticks_of_deadline(const History *, uint64_t deadline);

/* its parts: leave_out.c, deaths.c, missed.c, passed.c, numbers.c, ticks.c, lines.c */
void leave_out_cancelled(History *);
void place_deaths(History *);
void note_holder(const Record *); /* at an answer */
void write_dying(const Thread *);
void write_end(Thread *);
void write_deaths(const History *, const Record *, uint64_t place);
void count_missed(History *);
void note_missed(History *, Record *, uint64_t place); /* at its begin and at its answer */
void note_dropped(History *, const Record *); /* of a call that has no lines */
void note_passed(History *, const Record *);
void say_left_out(History *);
void tell_passed(const History *, void (*tell)(const char *line));
void number_all(History *);
void number_call(History *, const Record *); /* its mutex, and of a wait its variable, if they have no number yet */
bool make_clock(History *);
void pass_time(History *, const Record *, uint64_t place);
void forget_deadline(History *, Thread *);
void write_lines(History *);
void write_comment(const char *line);
void write_mutex(const Object *);
void write_variable(const Variable *);
void write_added(Thread *);
void write_call(History *, Record *, uint64_t place);

/* names.c: the comments that say who is who */
void note_name(Thread *); /* by itself */
void read_name(Thread *); /* of this process, and it hasn't ended */
void write_name_of_thread(Thread *);
void write_name_of_object(char letter, uint32_t number, const Object *);
void write_caller(const Record *);

/* file.c: the file of the history. 0, or the number of an error */
int keep_file(const char *file); /* opens it for the end, when the program may have fewer rights */
int open_file(const char *file);
int open_in_place(const char *file); /* it is written where it stands, from its beginning */
int write_file(const char *bytes, size_t size);
int close_file(const char *file, int failed); /* leaves it as it was, if something has failed */
void leave_file(const char *file);           /* as it was before the first call */

/* text.c */
int open_text(const char *file);
int open_growing_text(const char *file); /* that may be read while it is written */
int write_text_so_far(void);
int close_text(const char *file);
void put_text(const char *);
void put_number(uint64_t);
void put_name(char letter, uint32_t number);
void begin_comment(void); /* up to the line's end; it is cut if the line is full */
void end_line(void);
void say(const char *before, uint64_t number, const char *behind);
void say_error(const char *what, const char *file, int error); /* 0: the words say it all */

#endif
