/* What passes the recorder by, by kind and number: it is said at the end, on standard error and in the history. Each
   thread has counters that few others use, so that a count costs little. */
#define _GNU_SOURCE
#include <string.h>

#include "record.h"

enum { PAGE_BITS = 12, MOST_OF_ITEM = 100 };

static __thread char of_this_thread __attribute__((tls_model("initial-exec")));

/* What is told of one, of several, and in both cases behind that. */
static const struct {
    const char *one, *several, *behind;
} items[KINDS_PASSED] = {
    [OF_PLAIN_MUTEXES] = {"call", "calls", " on mutexes without inheritance"},
    [OF_THEIR_VARIABLES] = {"call", "calls", " on condition variables of mutexes that aren't recorded"},
    [OF_PROTECTED] = {"call", "calls", " on mutexes with PTHREAD_PRIO_PROTECT"},
    [OF_SHARED] = {"call", "calls", " on objects shared between processes"},
    [OF_UNIDENTIFIED] = {"call", "calls", " on shared objects whose memory can't be identified"},
    [OF_HELD_AT_FORK] = {"call", "calls", " on copies of mutexes that were held at a fork"},
    [OF_CANCELLED] = {"call", "calls", " of cancelled threads or on what they used"},
    [OF_CALLS_IN_CALLS] = {"call", "calls", " inside other calls or on what was used there"},
    [OF_LEFT_OUT] = {"call", "calls", " on what was used with something left out"},
    [OF_RWLOCKS] = {"call", "calls", " on rwlocks"},
    [OF_SEMAPHORES] = {"call", "calls", " on semaphores"},
    [OF_SPIN_LOCKS] = {"call", "calls", " on spin locks"},
    [OF_BARRIERS] = {"call", "calls", " on barriers"},
    [OF_ONCE] = {"call", "calls", " of pthread_once"},
    [OF_C11_MUTEXES] = {"call", "calls", " on mutexes of C11"},
    [OF_C11_VARIABLES] = {"call", "calls", " on condition variables of C11"},
    [OF_C11_ONCE] = {"call", "calls", " of call_once"},
    [OF_PRIORITIES] = {"call", "calls", " giving a priority"},
    [OF_POLICIES] = {"call", "calls", " of sched_setscheduler or sched_setparam"},
    [OF_MISSED] = {"unlock or initialisation", "unlocks or initialisations", " of recorded mutexes"},
    [DEEP_LIBRARIES] = {"library", "libraries", " opened with RTLD_DEEPBIND"},
    [OTHER_NAMESPACES] = {"library", "libraries", " opened with dlmopen"},
};

static const Passed kinds_left_out[REASONS] = {
    [PROTECTED] = OF_PROTECTED,     [SHARED] = OF_SHARED,          [UNIDENTIFIED] = OF_UNIDENTIFIED,
    [HELD_AT_FORK] = OF_HELD_AT_FORK, [WITH_CANCELLED] = OF_CANCELLED,
    [IN_CALLS] = OF_CALLS_IN_CALLS, [WITH_LEFT_OUT] = OF_LEFT_OUT, [OF_OTHERS] = OF_THEIR_VARIABLES,
};

static Shard *this_shard(void)
{
    uint32_t page = (uint32_t)((uintptr_t)&of_this_thread >> PAGE_BITS);

    return &run->shards[page * 2654435761u >> 26];
}

void pass_by(Passed what)
{
    if (atomic_load_explicit(&recording, memory_order_relaxed))
        atomic_fetch_add_explicit(&this_shard()->of[what], 1, memory_order_relaxed);
}

void pass_by_left_out(Reason reason) { pass_by(kinds_left_out[reason]); }

void forget_passed(void)
{
    for (size_t i = 0; i < SHARDS; i++)
        for (Passed what = 0; what < KINDS_PASSED; what++)
            atomic_store_explicit(&run->shards[i].of[what], 0, memory_order_relaxed);
}

/* Of a call that has a record and no lines: why. KINDS_PASSED, if nothing happened by it. */
static Passed kind_of(const Record *record)
{
    if (atomic_load(&record->thread->cancelled))
        return OF_CANCELLED;
    if (record->what == CALL_SETPRIO)
        return KINDS_PASSED;
    Reason reason = atomic_load(&record->object->left_out);
    if (reason == KEPT && is_wait(record))
        reason = atomic_load(&record->mutex->left_out);
    return reason == KEPT ? KINDS_PASSED : kinds_left_out[reason];
}

void note_passed(History *history, const Record *record) { history->passed[kind_of(record)]++; }

static void count_records(const History *history, uint64_t numbers[KINDS_PASSED + 1])
{
    for (uint64_t place = 1; place < history->cut; place++) {
        const Record *record = history->at[place];
        if (record != NULL && is_call(record) && is_begin(record, place) && !is_written(record))
            numbers[kind_of(record)]++;
    }
}

static void count_all(const History *history, uint64_t numbers[KINDS_PASSED + 1])
{
    for (size_t i = 0; i < SHARDS; i++)
        for (Passed what = 0; what < KINDS_PASSED; what++)
            numbers[what] += atomic_load_explicit(&run->shards[i].of[what], memory_order_relaxed);
    for (Passed what = 0; what < KINDS_PASSED; what++)
        numbers[what] += history->passed[what];
    count_records(history, numbers);
    numbers[OF_PRIORITIES] += counted(FOREIGN_PRIORITIES) + counted(UNKNOWN_THREADS) + counted(PRIORITIES_IN_CALLS);
    numbers[OF_MISSED] += history->missed + history->found_free;
}

static void name_item(char item[MOST_OF_ITEM], Passed what, uint64_t number)
{
    char room[MOST_DIGITS + 1];

    strcpy(item, digits_of(number, 10, room));
    strcat(item, " ");
    strcat(item, number == 1 ? items[what].one : items[what].several);
    strcat(item, items[what].behind);
}

/* In lines that begin with `not seen: `, and have room for `# ` before them. */
void tell_passed(const History *history, void (*tell)(const char *line))
{
    static const char start[] = "not seen: ", between[] = ", ";
    uint64_t numbers[KINDS_PASSED + 1] = {0};
    char line[MOST_OF_LINE - 1] = "", item[MOST_OF_ITEM];

    count_all(history, numbers);
    for (Passed what = 0; what < KINDS_PASSED; what++) {
        if (numbers[what] == 0)
            continue;
        name_item(item, what, numbers[what]);
        if (line[0] != '\0' && strlen(line) + strlen(between) + strlen(item) >= sizeof line) {
            tell(line);
            line[0] = '\0';
        }
        strcat(line, line[0] == '\0' ? start : between);
        strcat(line, item);
    }
    if (line[0] != '\0')
        tell(line);
}
