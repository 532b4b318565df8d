/* Holds an implementation in C to the core (`pif_try_target`): random calls on both, and a short story of the first
   that it answers otherwise. None of it is proved; what it takes to be right is the core, which is. */
#include <stdio.h>
#include <stdlib.h>
#include <string.h>

#include "lines.h"
#include "pif_target.h"

enum { MOST_THREADS = 64, MOST_OTHERS = 64, MOST_LINES = 100000 };

enum act { ADD_THREAD, ADD_MUTEX, ADD_COND, CALL, FINISH, END, TICK };

/* A line of a story. */
struct line {
    enum act act;
    uint32_t thread;     /* that acts */
    uint32_t number;     /* of a new thread its priority, of a mutex its kind, of a variable its mutex; a time */
    bool robust;         /* of a new mutex */
    pif_request request; /* of a call */
};

struct lines {
    struct line *at;
    size_t count;
};

/* What the target says otherwise than the core. */
enum asked { ANSWER, PRIORITY, OWNER };

struct difference {
    bool found;
    enum asked asked;
    uint32_t of;   /* the thread or the mutex that was asked about */
    pif_seen seen; /* of an answer, what the target says; else its number is here */
    uint32_t says;
};

/* A target at work beside a core. */
struct trial {
    const pif_target *target;
    const pif_trying *how;
    pif_core core;
    uint32_t threads, mutexes, conds;
    uint64_t random;
    struct difference differs;
};

/* CHANCE */

/* The next word of splitmix64. */
static uint64_t next_word(struct trial *trial)
{
    uint64_t word = trial->random += UINT64_C(0x9e3779b97f4a7c15);

    word = (word ^ word >> 30) * UINT64_C(0xbf58476d1ce4e5b9);
    word = (word ^ word >> 27) * UINT64_C(0x94d049bb133111eb);
    return word ^ word >> 31;
}

/* A number below this one, which is at least 1. */
static uint32_t below(struct trial *trial, uint32_t limit)
{
    return (uint32_t)(next_word(trial) % limit);
}

/* One of so many, from 1; 0 if there are none. */
static uint32_t one_of(struct trial *trial, uint32_t count)
{
    return count == 0 ? 0 : 1 + below(trial, count);
}

/* BOTH TOGETHER */

static bool is_seen(pif_seen one, pif_seen other)
{
    return one.what == other.what && (one.what != PIF_ANSWERED || one.detail == other.detail);
}

static void differ(struct trial *trial, enum asked asked, uint32_t of, uint32_t says)
{
    trial->differs.found = true;
    trial->differs.asked = asked;
    trial->differs.of = of;
    trial->differs.says = says;
}

/* Compares what the target shows, as far as it has readers. */
static void compare_readers(struct trial *trial)
{
    const pif_target *target = trial->target;

    for (uint32_t thread = 1; target->priority != NULL && thread <= trial->threads && !trial->differs.found; thread++) {
        pif_number is = pif_effective(&trial->core, thread);
        uint32_t says = is.result == PIF_OK ? target->priority(target->target, thread) : is.number;
        if (says != is.number)
            differ(trial, PRIORITY, thread, says);
    }
    for (uint32_t mutex = 1; target->owner != NULL && mutex <= trial->mutexes && !trial->differs.found; mutex++) {
        uint32_t is = pif_owner(&trial->core, mutex).thread, says = target->owner(target->target, mutex);
        if (says != is)
            differ(trial, OWNER, mutex, says);
    }
}

/* What the core says of a line that is no addition. */
static pif_seen core_says(pif_core *core, const struct line *line)
{
    switch (line->act) {
    case CALL: return pif_call(core, line->thread, line->request);
    case FINISH: return pif_finish(core, line->thread);
    case END: return pif_end(core, line->thread);
    default: return pif_tick(core, line->number);
    }
}

/* What the target says of it. */
static pif_seen target_says(const pif_target *target, const struct line *line)
{
    pif_seen seen = {PIF_ENDED, 0};

    switch (line->act) {
    case CALL: return target->call(target->target, line->thread, line->request);
    case FINISH: return target->finish(target->target, line->thread);
    case END: target->end(target->target, line->thread); return seen;
    default: target->tick(target->target, line->number); seen.what = PIF_TICKED; return seen;
    }
}

/* Adds what a line adds to both; false if the core doesn't. */
static bool add(struct trial *trial, const struct line *line)
{
    const pif_target *target = trial->target;
    pif_number is;

    if (line->act == ADD_THREAD) {
        is = pif_add_thread(&trial->core, line->number);
        if (is.result == PIF_OK)
            target->add_thread(target->target, trial->threads = is.number, line->number);
    } else if (line->act == ADD_MUTEX) {
        is = pif_add_mutex(&trial->core, line->number, line->robust);
        if (is.result == PIF_OK)
            target->add_mutex(target->target, trial->mutexes = is.number, line->number, line->robust);
    } else {
        is = pif_add_cond(&trial->core, line->number);
        if (is.result == PIF_OK)
            target->add_cond(target->target, trial->conds = is.number, line->number);
    }
    return is.result == PIF_OK;
}

/* Has both do what a line says, and compares them. False if the core refuses it, and then the target isn't asked. */
static bool do_line(struct trial *trial, const struct line *line)
{
    if (line->act <= ADD_COND)
        return add(trial, line);
    pif_seen is = core_says(&trial->core, line);
    if (is.what == PIF_REFUSED || is.what == PIF_UNNAMED)
        return false;
    trial->differs.seen = target_says(trial->target, line);
    if (is_seen(is, trial->differs.seen))
        compare_readers(trial);
    else
        differ(trial, ANSWER, line->thread, 0);
    return true;
}

/* Both begin anew; false if there is no memory for a core. */
static bool begin(struct trial *trial)
{
    trial->threads = trial->mutexes = trial->conds = 0;
    trial->differs.found = false;
    pif_core_free(&trial->core);
    trial->target->reset(trial->target->target);
    return pif_core_new(&trial->core, MOST_THREADS, MOST_OTHERS, MOST_OTHERS, UINT32_MAX) == PIF_OK;
}

/* Has both do these lines up to the first difference, and leaves those that were done. False if there is no memory. */
static bool play(struct trial *trial, struct lines *lines)
{
    size_t done = 0;

    if (!begin(trial))
        return false;
    for (size_t place = 0; place < lines->count && !trial->differs.found; place++)
        if (do_line(trial, &lines->at[place]))
            lines->at[done++] = lines->at[place];
    lines->count = done;
    return true;
}

/* RANDOM LINES */

static uint32_t one_kind(struct trial *trial)
{
    static const uint32_t kinds[] = {PIF_NORMAL, PIF_RECURSIVE, PIF_ERRORCHECK};

    return kinds[below(trial, 3)];
}

/* A mutex that the thread owns, if it owns one; else any. */
static uint32_t own_mutex(struct trial *trial, uint32_t thread)
{
    uint32_t first = one_of(trial, trial->mutexes);

    for (uint32_t more = 0; more < trial->mutexes; more++) {
        uint32_t mutex = 1 + (first - 1 + more) % trial->mutexes;
        if (pif_owner(&trial->core, mutex).thread == thread)
            return mutex;
    }
    return first;
}

/* A call on a condition variable. */
static pif_request cond_call(struct trial *trial, uint32_t choice)
{
    uint32_t cond = one_of(trial, trial->conds), mutex = pif_bound(&trial->core, cond).number;
    uint32_t deadline = pif_time(&trial->core).number + below(trial, 4);

    switch (choice) {
    case 0: return pif_signal(cond);
    case 1: return pif_broadcast(cond);
    case 2: return trial->target->tick == NULL ? pif_wait(cond, mutex) : pif_timedwait(cond, mutex, deadline);
    default: return pif_wait(cond, mutex);
    }
}

/* A call of this thread. */
static pif_request one_call(struct trial *trial, uint32_t thread)
{
    uint32_t choice = below(trial, 20), mutex = one_of(trial, trial->mutexes);

    if (choice < 4 && trial->conds > 0)
        return cond_call(trial, choice);
    if (choice < 5)
        return pif_setprio(one_of(trial, trial->threads), 1 + below(trial, 99));
    if (choice < 7)
        return pif_trylock(mutex);
    if (choice < 8 && trial->how->robust)
        return pif_consistent(own_mutex(trial, thread));
    if (choice < 9 && trial->target->tick != NULL)
        return pif_timedlock(mutex, pif_time(&trial->core).number + below(trial, 4));
    return choice < 14 ? pif_lock(mutex) : pif_unlock(own_mutex(trial, thread));
}

/* What a thread does: it goes on with its open call, ends, or makes a call. */
static struct line one_turn(struct trial *trial)
{
    struct line line = {CALL, one_of(trial, trial->threads), 0, false, pif_lock(0)};
    bool is_open = pif_waiting(&trial->core, line.thread).result == PIF_OK;

    if (trial->target->end != NULL && below(trial, 40) == 0) {
        line.act = END;
    } else if (trial->target->tick != NULL && below(trial, 20) == 0) {
        line.act = TICK;
        line.number = pif_time(&trial->core).number + 1 + below(trial, 3);
    } else if (is_open) {
        line.act = FINISH;
    } else {
        line.request = one_call(trial, line.thread);
    }
    return line;
}

/* The next line: what is still to be added, and then what a thread does. */
static struct line one_line(struct trial *trial)
{
    const pif_trying *how = trial->how;
    struct line line = {ADD_THREAD, 0, 1 + below(trial, 99), false, pif_lock(0)};

    if (trial->threads < how->threads)
        return line;
    line.act = ADD_MUTEX;
    line.number = one_kind(trial);
    line.robust = how->robust && below(trial, 2) == 0;
    if (trial->mutexes < how->mutexes)
        return line;
    line.act = ADD_COND;
    line.number = one_of(trial, trial->mutexes);
    return trial->conds < how->conds ? line : one_turn(trial);
}

/* Has both do random lines up to the first difference, and keeps them. False if there is no memory. */
static bool play_at_random(struct trial *trial, struct lines *lines)
{
    lines->count = 0;
    if (!begin(trial))
        return false;
    for (uint32_t left = trial->how->lines; left > 0 && !trial->differs.found; left--) {
        struct line line = one_line(trial);
        if (do_line(trial, &line))
            lines->at[lines->count++] = line;
    }
    return true;
}

/* SHORTER STORIES */

/* Lowers a number of what was added if it is above that of what is gone; false if it is that one. */
static bool renumber(uint32_t *number, uint32_t gone)
{
    if (*number > gone)
        (*number)--;
    else if (*number == gone)
        return false;
    return true;
}

/* A line once the thing of this number that `act` has added is gone; false if the line names it. */
static bool is_left(struct line *line, enum act act, uint32_t gone)
{
    bool is_call = line->act == CALL, names = true;

    if (act == ADD_THREAD) {
        names = line->act <= ADD_COND || line->act == TICK || renumber(&line->thread, gone);
        return names && (!is_call || line->request.call != PIF_SETPRIO || renumber(&line->request.thread, gone));
    }
    if (act == ADD_MUTEX && line->act == ADD_COND)
        return renumber(&line->number, gone);
    if (!is_call)
        return true;
    uint32_t *named = act == ADD_MUTEX ? &line->request.mutex : &line->request.cond;
    return *named == 0 || renumber(named, gone);
}

/* The lines without these, which begin at a place. Of an addition all that names what it adds goes too. */
static void leave_out(const struct lines *lines, size_t first, size_t count, struct lines *shorter)
{
    const struct line *out = &lines->at[first];
    uint32_t gone = 0;

    for (size_t place = 0; place <= first; place++)
        gone += lines->at[place].act == out->act;
    shorter->count = 0;
    for (size_t place = 0; place < lines->count; place++) {
        struct line line = lines->at[place];
        bool is_out = place >= first && place < first + count;
        if (!is_out && (out->act > ADD_COND || is_left(&line, out->act, gone)))
            shorter->at[shorter->count++] = line;
    }
}

/* Leaves out as many lines at a time as long as something differs then, and tries each place once. False if there is no
   memory. */
static bool shorten_by(struct trial *trial, struct lines *lines, struct lines *shorter, size_t count)
{
    for (size_t place = 0; place < lines->count;) {
        size_t out = lines->at[place].act <= ADD_COND ? 1 : count;
        leave_out(lines, place, out, shorter);
        if (!play(trial, shorter))
            return false;
        if (trial->differs.found) {
            struct lines swapped = *lines;
            *lines = *shorter;
            *shorter = swapped;
        } else {
            place += out;
        }
    }
    return true;
}

/* Makes lines at whose end something differs as short as leaving out makes them, and has both do them again. */
static bool shorten(struct trial *trial, struct lines *lines, struct lines *shorter)
{
    size_t before;

    do {
        before = lines->count;
        for (size_t count = before / 2 + 1; count > 0; count /= 2)
            if (!shorten_by(trial, lines, shorter, count))
                return false;
    } while (lines->count < before);
    return play(trial, lines);
}

/* THE STORY */

static void put_line(struct teller *teller, const struct line *line)
{
    switch (line->act) {
    case ADD_THREAD: put_number(teller, "thread ", line->number); break;
    case ADD_MUTEX: put_mutex(teller, line->number, line->robust); break;
    case ADD_COND: put_number(teller, "cond m", line->number); break;
    case CALL: put_number(teller, "call t", line->thread); put_call(teller, &line->request); break;
    case FINISH: put_number(teller, "finish t", line->thread); break;
    case END: put_number(teller, "end t", line->thread); break;
    case TICK: put_number(teller, "tick ", line->number); break;
    }
    put(teller, " = ");
}

/* A line with what the core says of it. */
static void tell_line(struct teller *teller, pif_core *core, const struct line *line)
{
    put_line(teller, line);
    switch (line->act) {
    case ADD_THREAD: put_number(teller, "t", pif_add_thread(core, line->number).number); break;
    case ADD_MUTEX: put_number(teller, "m", pif_add_mutex(core, line->number, line->robust).number); break;
    case ADD_COND: put_number(teller, "c", pif_add_cond(core, line->number).number); break;
    default: put_seen(teller, core_says(core, line));
    }
    end_line(teller);
}

/* What the target says otherwise, as a comment. */
static void tell_difference(struct teller *teller, const struct difference *differs)
{
    if (!differs->found) {
        put(teller, "# the target differed here once, and not when it was asked again");
    } else {
        put(teller, "# in the last line the target says: ");
        if (differs->asked == ANSWER)
            put_seen(teller, differs->seen);
        else if (differs->asked == PRIORITY)
            put_number(teller, "", differs->says);
        else if (differs->says == 0)
            put(teller, "nobody owns it");
        else
            put_number(teller, "its owner is t", differs->says);
    }
    end_line(teller);
}

/* The question of which the target says otherwise, with what the core says. */
static void tell_question(struct teller *teller, pif_core *core, const struct difference *differs)
{
    char word[16];

    if (!differs->found || differs->asked == ANSWER)
        return;
    put_number(teller, differs->asked == PRIORITY ? "prio t" : "word m", differs->of);
    put(teller, " = ");
    if (differs->asked == PRIORITY) {
        put_number(teller, "", pif_effective(core, differs->of).number);
    } else {
        snprintf(word, sizeof word, "0x%08lx", (unsigned long)pif_word(core, differs->of).number);
        put(teller, word);
    }
    end_line(teller);
}

/* Tells the story of these lines, and what differs behind them. False if there is no memory for a core. */
static bool tell_story(struct trial *trial, const struct lines *lines, pif_sink *sink, void *to)
{
    struct teller teller = {sink, to, "", 0};
    struct difference differs = trial->differs;

    pif_core_free(&trial->core);
    if (pif_core_new(&trial->core, MOST_THREADS, MOST_OTHERS, MOST_OTHERS, UINT32_MAX) != PIF_OK)
        return false;
    tell_difference(&teller, &differs);
    for (size_t place = 0; place < lines->count; place++)
        tell_line(&teller, &trial->core, &lines->at[place]);
    tell_question(&teller, &trial->core, &differs);
    return true;
}

/* ALL */

static uint32_t at_least_one(uint32_t number, uint32_t usual, uint32_t most)
{
    number = number == 0 ? usual : number;
    return number < most ? number : most;
}

/* What is asked for, with what is usual in place of zeros. */
static pif_trying wanted(const pif_trying *how)
{
    pif_trying all = {0};

    if (how != NULL)
        memcpy(&all, how, how->size < sizeof all ? how->size : sizeof all);
    all.stories = at_least_one(all.stories, 100, UINT32_MAX);
    all.lines = at_least_one(all.lines, 60, MOST_LINES);
    all.threads = at_least_one(all.threads, 4, MOST_THREADS);
    all.mutexes = at_least_one(all.mutexes, 3, MOST_OTHERS);
    all.conds = all.conds < MOST_OTHERS ? all.conds : MOST_OTHERS;
    return all;
}

/* Plays stories until one differs, and tells that. */
static uint32_t try_stories(struct trial *trial, struct lines *lines, struct lines *shorter, pif_sink *sink, void *to)
{
    for (uint32_t story = 0; story < trial->how->stories; story++) {
        trial->random = trial->how->seed + story;
        if (!play_at_random(trial, lines))
            return PIF_TRY_NO_MEMORY;
        if (!trial->differs.found)
            continue;
        bool is_told = shorten(trial, lines, shorter) && (sink == NULL || tell_story(trial, lines, sink, to));
        return is_told ? PIF_DIFFERENT : PIF_TRY_NO_MEMORY;
    }
    return PIF_SAME;
}

static bool has_all(const pif_target *target)
{
    return target != NULL && target->size >= sizeof *target && target->reset != NULL && target->add_thread != NULL
        && target->add_mutex != NULL && target->call != NULL && target->finish != NULL;
}

uint32_t pif_try_target(const pif_target *target, const pif_trying *how, pif_sink *sink, void *to)
{
    pif_trying all = wanted(how);
    struct trial trial = {target, &all, {0}, 0, 0, 0, 0, {0}};
    struct lines lines = {NULL, 0}, shorter = {NULL, 0};
    uint32_t tried = PIF_TRY_NO_MEMORY;

    if (!has_all(target) || (all.conds > 0 && target->add_cond == NULL))
        return PIF_TRY_INVALID;
    lines.at = calloc(all.lines, sizeof *lines.at);
    shorter.at = calloc(all.lines, sizeof *shorter.at);
    if (lines.at != NULL && shorter.at != NULL)
        tried = try_stories(&trial, &lines, &shorter, sink, to);
    pif_core_free(&trial.core);
    free(lines.at);
    free(shorter.at);
    return tried;
}
