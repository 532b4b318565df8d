/* librecord.so: records what a program of glibc calls on mutexes and condition variables, as a history.
   This file starts it and ends it: the calls below it, its environment, forks, and signals that end the program. */
#define _GNU_SOURCE
#include <errno.h>
#include <limits.h>
#include <signal.h>
#include <stdlib.h>
#include <string.h>
#include <unistd.h>

#include "record.h"

enum { MOST_RECORDS = 262144 };
enum { NOT_READY, STARTS, READY };

Real real;
bool inheriting_alone, records_where;
uint32_t most_records = MOST_RECORDS;
_Atomic bool recording;
const char *history_file;

static _Atomic int readiness;
static __thread bool is_starting; /* then an allocation may lock a mutex of the program's */
static _Atomic bool is_refused; /* the file can't be opened */
static _Atomic bool taken; /* a call is recorded, so this is the program whose history is written */
static pid_t process;

/* Lets any other thread run, whatever the priorities are. */
void rest(void)
{
    struct timespec pause = {0, 100000};

    nanosleep(&pause, NULL);
}

void count(Count what) { atomic_fetch_add(&run->counts[what], 1); }

uint64_t counted(Count what) { return atomic_load(&run->counts[what]); }

static void forget_counts(void)
{
    for (Count what = 0; what < COUNTS; what++)
        atomic_store(&run->counts[what], 0);
    forget_reasons();
    forget_passed();
}

static void find_calls(void)
{
    *(void **)&real.lock = below("pthread_mutex_lock");
    *(void **)&real.unlock = below("pthread_mutex_unlock");
    *(void **)&real.trylock = below("pthread_mutex_trylock");
    *(void **)&real.timedlock = below("pthread_mutex_timedlock");
    *(void **)&real.clocklock = below("pthread_mutex_clocklock");
    *(void **)&real.consistent = below("pthread_mutex_consistent");
    *(void **)&real.mutex_init = below("pthread_mutex_init");
    *(void **)&real.mutex_destroy = below("pthread_mutex_destroy");
    *(void **)&real.cond_init = new_below("pthread_cond_init");
    *(void **)&real.cond_destroy = new_below("pthread_cond_destroy");
    *(void **)&real.wait = new_below("pthread_cond_wait");
    *(void **)&real.timedwait = new_below("pthread_cond_timedwait");
    *(void **)&real.clockwait = below("pthread_cond_clockwait");
    *(void **)&real.signal = new_below("pthread_cond_signal");
    *(void **)&real.broadcast = new_below("pthread_cond_broadcast");
    *(void **)&real.create = below("pthread_create");
    *(void **)&real.join = below("pthread_join");
    *(void **)&real.exit = below("pthread_exit");
    *(void **)&real.setschedprio = below("pthread_setschedprio");
    *(void **)&real.setschedparam = below("pthread_setschedparam");
    find_others();
    find_waits();
    find_maps();
}

/* Once a call of this process is recorded, its children record nothing, but in a shared run. The parts of a recording
   are those of the process that made them. */
static void in_child(void)
{
    if (is_parted_run() || is_being_opened()) {
        atomic_store(&recording, false);
        forget_thread();
        return;
    }
    if (is_shared_run()) {
        forget_process();
        forget_thread();
        atomic_store(&taken, false);
        is_forked = true;
        return;
    }
    if (atomic_load(&taken))
        atomic_store(&recording, false);
    else
        process = getpid();
    forget_counts();
}

/* The program may go to another directory. None if the path is too long. */
static const char *whole_path(const char *file)
{
    static char path[2 * PATH_MAX];

    if (file[0] == '/' || getcwd(path, PATH_MAX) == NULL)
        path[0] = '\0';
    else
        strcat(path, "/");
    if (strlen(file) >= PATH_MAX)
        return NULL;
    return strcat(path, file);
}

/* The number that a whole text is; 0 if it is none, or 0. */
static unsigned long long number_in(const char *text)
{
    char *end;
    unsigned long long number = strtoull(text, &end, 10);

    return text[0] >= '0' && text[0] <= '9' && *end == '\0' ? number : 0;
}

/* Whether a variable is this word; `said` is said if it is another one, but for 0. */
static bool is_word(const char *variable, const char *wanted, const char *said)
{
    const char *word = getenv(variable);

    if (word == NULL || word[0] == '\0' || strcmp(word, "0") == 0)
        return false;
    if (strcmp(word, wanted) != 0 && getenv("RECORD_FILE") != NULL)
        say(said, 0, NULL);
    return strcmp(word, wanted) == 0;
}

/* The number of a variable; `said` is said if it is none. */
static unsigned long long number_of(const char *variable, const char *said)
{
    const char *word = getenv(variable);
    unsigned long long number = word == NULL ? 0 : number_in(word);

    if (number == 0 && word != NULL && (getenv("RECORD_FILE") != NULL || getenv("RECORD_DIR") != NULL))
        say(said, 0, NULL);
    return number;
}

/* Of a file or a directory in which something is recorded; NULL if there is none. */
static const char *target_of(const char *variable, const char *too_long)
{
    const char *name = getenv(variable), *path = name == NULL || name[0] == '\0' ? NULL : whole_path(name);

    if (name != NULL && name[0] != '\0' && path == NULL)
        say(too_long, 0, NULL);
    return path;
}

static void read_environment(void)
{
    inheriting_alone = is_word("RECORD_ONLY", "inherit", "RECORD_ONLY is not inherit, and is passed over");
    records_where = is_word("RECORD_WHERE", "1", "RECORD_WHERE is neither 0 nor 1, and is passed over");
    unsigned long long number = number_of("RECORD_MAX", "RECORD_MAX is no number, and is passed over");
    if (number > 0)
        most_records = number > UINT32_MAX ? UINT32_MAX : (uint32_t)number;
    kept_parts = number_of("RECORD_KEEP", "RECORD_KEEP is no number, and is passed over");
    const char *directory = target_of("RECORD_DIR", "nothing is recorded: the path of RECORD_DIR is too long");
    if (directory != NULL)
        read_directory(directory);
    else
        history_file = target_of("RECORD_FILE", "nothing is recorded: the path of RECORD_FILE is too long");
}

/* Whether there is something to write to. */
static bool has_target(void)
{
    const char *shared = getenv("RECORD_SHARED");

    if (shared == NULL || shared[0] == '\0')
        return history_file != NULL || records_in_parts();
    int why = join_run(shared);
    if (why == EILSEQ)
        say_error("nothing is recorded: RECORD_SHARED is no recording", shared, 0);
    else if (why != 0)
        say_error("nothing is recorded: RECORD_SHARED cannot be used", shared, why);
    return why == 0;
}

static void start(void)
{
    find_calls();
    read_environment();
    process = getpid();
    if (!has_target())
        return;
    if (make_key() && pthread_atfork(NULL, NULL, in_child) == 0)
        atomic_store(&recording, true);
    else
        say("nothing is recorded: no key for a thread's end", 0, NULL);
}

__attribute__((constructor)) void be_ready(void)
{
    int stage = NOT_READY;

    if (atomic_load_explicit(&readiness, memory_order_acquire) == READY || is_starting)
        return;
    if (atomic_compare_exchange_strong(&readiness, &stage, STARTS)) {
        is_starting = true;
        start();
        is_starting = false;
        atomic_store_explicit(&readiness, READY, memory_order_release);
    }
    while (atomic_load_explicit(&readiness, memory_order_acquire) != READY)
        rest();
}

/* A signal that would end the program ends it, with its history written first. */
static void end_by_signal(int number)
{
    end_of_program();
    signal(number, SIG_DFL);
    raise(number);
}

/* The signals at which the history is written, if the program doesn't handle them itself. */
static const int last_signals[] = {SIGTERM, SIGALRM, SIGINT, SIGHUP, SIGQUIT, SIGABRT, SIGSEGV, SIGBUS, SIGFPE, SIGILL};

static void write_at_signal(int number)
{
    struct sigaction present, ours;

    if (sigaction(number, NULL, &present) != 0 || present.sa_handler != SIG_DFL)
        return;
    memset(&ours, 0, sizeof ours);
    ours.sa_handler = end_by_signal;
    sigaction(number, &ours, NULL);
}

/* The program's call is no cancellation point, and leaves its errno as it was. */
static void open_at_first(void)
{
    int number = errno, state;

    pthread_setcancelstate(PTHREAD_CANCEL_DISABLE, &state);
    int why = keep_file(history_file);
    if (why != 0) {
        atomic_store(&is_refused, true);
        atomic_store(&recording, false);
        say_error("nothing is recorded: RECORD_FILE cannot be opened", history_file, why);
    }
    pthread_setcancelstate(state, NULL);
    errno = number;
}

/* At the first call. From here on this program is the one that is recorded: those that it starts find no RECORD_FILE.
   The variable's name is changed where it stands, since another thread may read the environment now. */
void take_the_file(void)
{
    extern char **environ;

    if (atomic_load_explicit(&taken, memory_order_relaxed) || atomic_exchange(&taken, true))
        return;
    for (size_t i = 0; i < sizeof last_signals / sizeof *last_signals; i++)
        write_at_signal(last_signals[i]);
    if (is_shared_run()) {
        atomic_store(&run->has_call, true);
        atomic_store(&run->most_records, most_records);
        end_older();
        return;
    }
    for (char **entry = environ; entry != NULL && *entry != NULL; entry++)
        if (strncmp(*entry, "RECORD_FILE=", 12) == 0 || strncmp(*entry, "RECORD_DIR=", 11) == 0)
            (*entry)[0] = '_';
    if (is_parted_run())
        atomic_store(&run->has_call, true);
    else
        open_at_first();
}

static void end_parts(void)
{
    if (atomic_load(&taken)) {
        end_process();
        atomic_store(&run->has_ended, true);
    } else if (lost_place() == UINT64_MAX) {
        say_no_history();
    }
}

static void end_history(void)
{
    if (!atomic_load(&taken)) {
        say_no_history();
        return;
    }
    end_process();
    write_history();
}

__attribute__((destructor)) void end_of_program(void)
{
    if (is_shared_run())
        end_process();
    else if (getpid() != process)
        return;
    else if (records_in_parts())
        end_parts();
    else if (!is_parted_run() && history_file != NULL && !atomic_load(&is_refused))
        end_history();
}
