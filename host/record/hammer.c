/* Threads that call all there is on a few mutexes, by a seed: something to record. */
#include <errno.h>
#include <getopt.h>
#include <sched.h>
#include <stdio.h>
#include <stdlib.h>
#include <string.h>
#include <time.h>
#include <unistd.h>

#include "hammer.h"

enum { MAIN_PRIORITY = 60, LEAST_PRIORITY = 10, PACE_MICROSECONDS = 1000 };

static const char help[] =
    "hammer [OPTION..]: threads call mutexes and condition variables at random\n"
    "\n"
    "  --threads N      how many run at once, 2 to 16; 4 without it\n"
    "  --mutexes N      1 to 4; 2 without it\n"
    "  --variables N    0 to 4, of the mutexes in turn; 1 without it\n"
    "  --calls N        how many each makes, 1 to 1000000000; 500 without it\n"
    "  --seed N         what they choose; 1 without it\n"
    "  --kinds          normal, errorcheck and recursive mutexes; without it all are normal\n"
    "  --robust         every other mutex is robust; without it none is\n"
    "  --all-robust     each one is\n"
    "  --trylock P      of a hundred locks P are trylocks; 20 without it\n"
    "  --timed P        of a hundred locks and waits P have a deadline of up to 2 ms; 20 without it\n"
    "  --waits P        of a hundred calls with a mutex held P wait, without one P signal; 20 without it\n"
    "  --ends P         after a hundred calls P threads end, with robust mutexes held; 0 without it\n"
    "  --rests MS       all threads rest at once every MS milliseconds, with nothing held; without it they never do\n"
    "  --idle MS        a rest takes so long, and not only until all have begun it\n"
    "  --fifo           SCHED_FIFO, priorities 10 to 25; without it SCHED_OTHER\n"
    "  --priorities P   with --fifo: of a hundred calls without a mutex P set the thread's priority; 5 without it\n"
    "  --plain          mutexes without PTHREAD_PRIO_INHERIT\n"
    "  --std            the mutexes and condition variables of Rust's standard library; locks have no deadline there\n"
    "  --parking_lot    those of Rust's parking_lot\n"
    "  --library FILE   those of a library, which has a function `calls` as host/others/nsync/nsync.c does\n"
    "  --seconds N      SIGALRM ends it then; 20 without it\n"
    "  --help           prints this\n"
    "\n"
    "It prints one line with how often each answer came. Status 0: all calls were made; 1: wrong words, or the\n"
    "history can't be written; 6: a thread can't be started; 7: SCHED_FIFO isn't allowed, or Rust's or the library can't\n"
    "be had; 9: SIGALRM ended it, and there is a history. To record it:\n"
    "\n"
    "  RECORD_FILE=a.history LD_PRELOAD=host/record/librecord.so host/record/hammer --robust --ends 1\n"
    "\n"
    "Those of Rust and of a library have neither robustness nor priorities, so that they take none of --kinds,\n"
    "--robust, --all-robust, --ends, --fifo and --plain. They need no LD_PRELOAD: with RECORD_FILE the hammer writes the\n"
    "history, also when SIGALRM ends it.\n";

Orders orders = {
    .threads = 4, .mutexes = 2, .variables = 1, .calls = 500, .seconds = 20, .seed = 1,
    .trylocks = 20, .timed = 20, .waits = 20, .priorities = 5,
};
const Calls *calls = &glibc_calls;
Mutex mutexes[MOST_MUTEXES];
pthread_cond_t variables[MOST_VARIABLES];
_Atomic unsigned waiting[MOST_VARIABLES];
_Atomic unsigned long answers[MOST_ANSWERS];
_Atomic bool is_resting;
_Atomic unsigned resting;

static Slot slots[MOST_THREADS];

typedef struct {
    const char *name;
    unsigned *number, least, most;
    bool *is_said;
    const char **text;
} Option;

static const Option options[] = {
    {"threads", &orders.threads, 2, MOST_THREADS, NULL, NULL},
    {"mutexes", &orders.mutexes, 1, MOST_MUTEXES, NULL, NULL},
    {"variables", &orders.variables, 0, MOST_VARIABLES, NULL, NULL},
    {"calls", &orders.calls, 1, 1000000000, NULL, NULL},
    {"seed", &orders.seed, 0, UINT32_MAX, NULL, NULL},
    {"trylock", &orders.trylocks, 0, 100, NULL, NULL},
    {"timed", &orders.timed, 0, 100, NULL, NULL},
    {"waits", &orders.waits, 0, 100, NULL, NULL},
    {"ends", &orders.ends, 0, 100, NULL, NULL},
    {"priorities", &orders.priorities, 0, 100, NULL, NULL},
    {"rests", &orders.rests, 1, 3600000, NULL, NULL},
    {"idle", &orders.idle, 0, 3600000, NULL, NULL},
    {"seconds", &orders.seconds, 1, 3600, NULL, NULL},
    {"kinds", NULL, 0, 0, &orders.kinds, NULL},
    {"robust", NULL, 0, 0, &orders.robust, NULL},
    {"all-robust", NULL, 0, 0, &orders.all_robust, NULL},
    {"fifo", NULL, 0, 0, &orders.fifo, NULL},
    {"plain", NULL, 0, 0, &orders.plain, NULL},
    {"std", NULL, 0, 0, &orders.std, NULL},
    {"parking_lot", NULL, 0, 0, &orders.parking_lot, NULL},
    {"library", NULL, 0, 0, NULL, &orders.library},
};
enum { OPTIONS = sizeof options / sizeof *options };

static bool take_number(const Option *option, const char *word)
{
    char *end;
    unsigned long number = strtoul(word, &end, 10);

    if (end == word || *end != '\0' || *word == '-' || number < option->least || number > option->most) {
        fprintf(stderr, "hammer: --%s takes %u to %u\n", option->name, option->least, option->most);
        return false;
    }
    *option->number = (unsigned)number;
    return true;
}

/* Whether all words are right. */
static bool take_words(int count, char **words)
{
    struct option known[OPTIONS + 2] = {{0}};
    int at;

    for (int i = 0; i < OPTIONS; i++)
        known[i] = (struct option){options[i].name, options[i].is_said == NULL, NULL, i};
    known[OPTIONS] = (struct option){"help", no_argument, NULL, OPTIONS};
    while ((at = getopt_long(count, words, "", known, NULL)) >= 0) {
        if (at == OPTIONS) {
            fputs(help, stdout);
            exit(STATUS_DONE);
        }
        if (at == '?')
            return false;
        if (options[at].is_said != NULL)
            *options[at].is_said = true;
        else if (options[at].text != NULL)
            *options[at].text = optarg;
        else if (!take_number(&options[at], optarg))
            return false;
    }
    return optind == count;
}

static int type_of(unsigned number)
{
    static const int types[] = {PTHREAD_MUTEX_NORMAL, PTHREAD_MUTEX_ERRORCHECK, PTHREAD_MUTEX_RECURSIVE};

    return orders.recursive ? PTHREAD_MUTEX_RECURSIVE : types[orders.kinds ? (number + orders.seed) % 3 : 0];
}

static int start(Slot *slot)
{
    pthread_attr_t attributes;
    struct sched_param parameters = {.sched_priority = LEAST_PRIORITY + (int)choose(slot, MOST_THREADS)};

    memset(slot->held, 0, sizeof slot->held);
    atomic_store(&slot->has_ended, false);
    pthread_attr_init(&attributes);
    if (orders.fifo) {
        pthread_attr_setinheritsched(&attributes, PTHREAD_EXPLICIT_SCHED);
        pthread_attr_setschedpolicy(&attributes, SCHED_FIFO);
        pthread_attr_setschedparam(&attributes, &parameters);
    }
    int failed = pthread_create(&slot->thread, &attributes, work, slot);
    pthread_attr_destroy(&attributes);
    slot->is_running = failed == 0;
    return failed;
}

static int start_all(void)
{
    for (unsigned i = 0; i < orders.threads; i++) {
        slots[i].number = i;
        slots[i].left = orders.calls;
        slots[i].random = (orders.seed + 1) * 0x9e3779b97f4a7c15u ^ (i + 1) * 0xbf58476d1ce4e5b9u;
        choose(&slots[i], 2);
        if (start(&slots[i]) != 0)
            return STATUS_THREADS;
    }
    return STATUS_DONE;
}

/* A few are never joined. */
static int follow(Slot *slot)
{
    if (!slot->is_running || !atomic_load(&slot->has_ended))
        return STATUS_DONE;
    if (happens(slot, 10))
        pthread_detach(slot->thread);
    else
        pthread_join(slot->thread, NULL);
    slot->is_running = false;
    return slot->left > 0 && start(slot) != 0 ? STATUS_THREADS : STATUS_DONE;
}

static bool is_any_running(void)
{
    for (unsigned i = 0; i < orders.threads; i++)
        if (slots[i].is_running)
            return true;
    return false;
}

static unsigned running(void)
{
    unsigned count = 0;

    for (unsigned i = 0; i < orders.threads; i++)
        count += slots[i].is_running && !atomic_load(&slots[i].has_ended);
    return count;
}

/* A rest ends when all threads have begun it, and when it was as long as it is to be. */
static void pace_rests(unsigned round)
{
    static unsigned begun;

    if (orders.rests > 0 && round % orders.rests == 0) {
        begun = round;
        atomic_store(&is_resting, true);
    } else if (round - begun >= orders.idle && atomic_load(&resting) >= running()) {
        atomic_store(&is_resting, false);
    }
}

/* Wakes who waits without a deadline, and follows threads that end. */
static int pace(void)
{
    struct timespec pause = {0, 1000L * PACE_MICROSECONDS};
    int status = STATUS_DONE;

    for (unsigned round = 1; status == STATUS_DONE && is_any_running(); round++) {
        nanosleep(&pause, NULL);
        pace_rests(round);
        for (unsigned i = 0; i < orders.variables; i++)
            if (atomic_load(&waiting[i]) > 0)
                calls->broadcast(i);
        for (unsigned i = 0; i < orders.threads && status == STATUS_DONE; i++)
            status = follow(&slots[i]);
    }
    return status;
}

static void print_answers(void)
{
    unsigned long calls = 0;

    for (int i = 0; i < MOST_ANSWERS; i++)
        calls += atomic_load(&answers[i]);
    printf("hammer: seed %u, %u threads, %u mutexes, %lu calls; answers", orders.seed, orders.threads, orders.mutexes,
           calls);
    for (int i = 0; i < MOST_ANSWERS; i++)
        if (atomic_load(&answers[i]) > 0)
            printf(" %d: %lu", i, atomic_load(&answers[i]));
    printf("\n");
}

static bool become_first(void)
{
    struct sched_param parameters = {.sched_priority = MAIN_PRIORITY};

    return !orders.fifo || pthread_setschedparam(pthread_self(), SCHED_FIFO, &parameters) == 0;
}

/* Mutexes of Rust and of a library have less to ask. */
static bool are_together(void)
{
    int others = orders.std + orders.parking_lot + (orders.library != NULL);

    return others <= 1 &&
           !(others == 1 && (orders.kinds || orders.robust || orders.all_robust || orders.ends > 0 || orders.fifo
                             || orders.plain));
}

/* Whether all that is asked for can be asked here. */
static bool prepare(char **words)
{
    if (!become_first()) {
        fprintf(stderr, "hammer: SCHED_FIFO isn't allowed here\n");
        return false;
    }
    if (orders.library != NULL)
        return use_library(orders.library, words);
    return orders.std ? use_rust("std", words) : !orders.parking_lot || use_rust("parking_lot", words);
}

int main(int count, char **words)
{
    if (!take_words(count, words) || !are_together()) {
        fprintf(stderr, "hammer: wrong words; hammer --help has them all\n");
        return STATUS_WORDS;
    }
    if (!prepare(words))
        return STATUS_CANNOT_ASK;
    alarm(orders.seconds);
    for (unsigned i = 0; i < orders.mutexes; i++)
        make_mutex(&mutexes[i], type_of(i), orders.all_robust || (orders.robust && i % 2 == 0));
    for (unsigned i = 0; i < orders.variables; i++)
        pthread_cond_init(&variables[i], NULL);
    int status = start_all();
    if (status == STATUS_DONE)
        status = pace();
    alarm(0);
    print_answers();
    return status == STATUS_DONE && !write_history() ? STATUS_WORDS : status;
}
