/* The history of a recording in parts, line by line while its program makes it.

   Records are read in their order, each when it is published and all before it are. So what is written is always a
   beginning of a history, whatever comes later. What is known at the end alone is settled otherwise than without
   --follow:

   - Threads, mutexes and variables are added by the first line that names them. A signal or broadcast of a variable on
     which nobody has waited has no line; if it is open when the first wait begins, it begins there.
   - A call that gives a priority, or has a time that is none, has no lines if it is refused. So the reading waits for
     its answer, unless that is behind the next part.
   - `dying` stands before the first line that shows it: the thread's `end`, the EOWNERDEAD of a mutex that it had, or
     the ESRCH of a call that gave it a priority. What ends with the program has no such line.
   - What was cancelled, or used inside another call, is left out as a whole. If it has lines already, the history ends
     there. */
#define _GNU_SOURCE
#include <dirent.h>
#include <errno.h>
#include <signal.h>
#include <stdio.h>
#include <stdlib.h>
#include <string.h>
#include <sys/mman.h>
#include <time.h>

#include "join.h"

enum { NANOSECONDS_BETWEEN_LOOKS = 50000000, MAPPED = 2 };

typedef struct {
    uint64_t number; /* 0: there is none */
    Head *head;
} Mapped;

typedef struct {
    History history;
    Mapped mapped[MAPPED]; /* the part of this place, and the next one: by number */
    uint64_t place;        /* all before it are read */
    bool is_over;          /* the program has gone, so that nothing more is published */
    int status;            /* of a part that can't be read */
    const char *why;       /* the history ends before this place although the recording goes on; NULL: it doesn't */
} Following;

typedef enum { READ, NOT_YET, ENDS } Look;

static const char cancelled[] = "a thread was cancelled inside a call";
static const char behind_end[] = "a thread made a call behind its end";
static const char refused[] = "a call was refused long after its begin";
static const char unseen_end[] = "a robust mutex was left by a thread whose end wasn't seen";
static const char left_out_later[] = "something that has lines is left out from here on";

static volatile sig_atomic_t is_stopped;

static void stop(int number)
{
    (void)number;
    is_stopped = 1;
}

/* The first one ends the history in its order, and the second one ends the process at once. */
static void stop_at_signals(void)
{
    static const int numbers[] = {SIGINT, SIGTERM, SIGHUP};
    struct sigaction action = {.sa_handler = stop, .sa_flags = SA_RESETHAND};

    for (size_t i = 0; i < sizeof numbers / sizeof *numbers; i++)
        sigaction(numbers[i], &action, NULL);
}

bool rest_between_looks(void)
{
    struct timespec time = {.tv_nsec = NANOSECONDS_BETWEEN_LOOKS};

    if (!is_stopped)
        nanosleep(&time, NULL);
    return !is_stopped;
}

/* Whether the maps of a thread name this file; also if they can't be read although the thread is there. */
static bool maps_file(const char *maps_of_thread, const char *name)
{
    FILE *maps = fopen(maps_of_thread, "re");
    char *line = NULL;
    size_t room = 0;
    bool is_there = false;

    if (maps == NULL)
        return errno != ENOENT && errno != ESRCH;
    while (!is_there && getline(&line, &room, maps) >= 0)
        is_there = strstr(line, name) != NULL;
    free(line);
    fclose(maps);
    return is_there;
}

/* The process of the run, whose number its name begins with, has the run's file mapped up to its end or its execve.
   Each of its threads may show that: `main` may have ended before the others. */
bool has_gone(const char *run_name)
{
    struct dirent *thread;
    char path[64 + sizeof thread->d_name], name[MOST_OF_RUN + 8];
    long process = strtol(run_name, NULL, 10);
    bool is_there = false;

    snprintf(path, sizeof path, "/proc/%ld/task", process);
    snprintf(name, sizeof name, "/%s.run", run_name);
    DIR *threads = opendir(path);
    if (threads == NULL)
        return process <= 0 || (kill((pid_t)process, 0) != 0 && errno == ESRCH);
    while (!is_there && (thread = readdir(threads)) != NULL) {
        snprintf(path, sizeof path, "/proc/%ld/task/%s/maps", process, thread->d_name);
        is_there = thread->d_name[0] != '.' && maps_file(path, name);
    }
    closedir(threads);
    return !is_there;
}

/* Of what stands in `run`: the program's own. */
static const void *watched_at(const void *own)
{
    return (const char *)watched + ((const char *)own - (const char *)run);
}

static bool is_of_run(const void *pointer, size_t size)
{
    return pointer != NULL && of_run(number_in_run(pointer), size) == pointer;
}

/* For the names of objects. */
static Process *meet_process(Process *process)
{
    if (!is_of_run(process, sizeof *process))
        return NULL;
    const Process *there = watched_at(process);
    const char *text = atomic_load(&there->maps);
    if (process->number != 0 || !is_of_run(text, 1))
        return process;
    process->number = there->number;
    size_t most = size_of_run - (size_t)(text - (const char *)run);
    size_t size = strnlen(watched_at(text), most - 1);
    char *copy = map_memory(size + 1);
    atomic_store(&process->maps, copy == NULL ? NULL : memcpy(copy, watched_at(text), size));
    return process;
}

static void meet_thread(Thread *thread, uint64_t place)
{
    if (thread == NULL || thread->added_place != 0)
        return;
    const Thread *there = watched_at(thread);
    thread->added_place = place;
    thread->process = meet_process(there->process);
    thread->start = there->start;
    memcpy(thread->inherited, there->inherited, sizeof thread->inherited);
    thread->inherited[sizeof thread->inherited - 1] = '\0';
    thread->next = run->threads;
    run->threads = thread;
}

/* It may be left out at any time. */
static void meet_object(Object *object, uint64_t place)
{
    const Object *there = watched_at(object);

    if (object->last_use == 0) {
        object->kind = there->kind;
        object->clock = there->clock;
        object->address = there->address;
        object->first_used = there->first_used;
        object->process = meet_process(there->process);
    }
    object->last_use = place;
    if (object->left_out == KEPT)
        object->left_out = atomic_load(&there->left_out);
}

static bool has_lines(const Object *object) { return object->number != 0 || object->first_variable != NULL; }

static bool leaves_out_lines(const Object *object) { return object->left_out != KEPT && has_lines(object); }

/* Of a call but setprio: whether what it uses is to be left out and has lines. */
static bool is_left_out_later(const Record *record)
{
    Object *object = record->object, *mutex = record->mutex;

    meet_object(object, record->begin_place);
    if (!is_wait(record))
        return leaves_out_lines(object);
    meet_object(mutex, record->begin_place);
    if (object->left_out != KEPT)
        leave_out(mutex, WITH_LEFT_OUT);
    else if (mutex->left_out != KEPT)
        leave_out(object, WITH_LEFT_OUT);
    return leaves_out_lines(object) || leaves_out_lines(mutex);
}

static void add_thread(History *history, Thread *thread)
{
    if (thread->number != 0)
        return;
    const Thread *there = watched_at(thread);
    thread->number = ++history->thread_count;
    atomic_store(&thread->priority, atomic_load(&there->priority));
    memcpy(thread->name, there->name, sizeof thread->name);
    thread->name[sizeof thread->name - 1] = '\0';
    write_added(thread);
}

/* Signals and broadcasts of a variable that has just been added. */
static void begin_open_uses(History *history, const Object *object)
{
    for (Thread *thread = run->threads; thread != NULL; thread = thread->next) {
        Record *use = &thread->present;
        if (!thread->in_call || thread->open != NULL || !is_use(use->what) || use->object != object)
            continue;
        add_thread(history, thread);
        write_call(history, use, use->begin_place);
    }
}

static void add_objects(History *history, const Record *record)
{
    const Object *last_mutex = history->last_mutex;
    const Variable *last_variable = history->last_variable;
    bool is_first = last_variable == NULL || record->object->first_variable == NULL;

    number_call(history, record);
    if (history->last_mutex != last_mutex)
        write_mutex(history->last_mutex);
    if (history->last_variable == last_variable)
        return;
    write_variable(history->last_variable);
    if (is_first)
        begin_open_uses(history, record->object);
}

static void write_begun(Following *following, Record *record)
{
    History *history = &following->history;

    add_thread(history, record->thread);
    if (record->what != CALL_SETPRIO)
        add_objects(history, record);
    if (!history->no_memory)
        write_call(history, record, record->begin_place);
}

/* `answer_place` isn't 0 if it is known already that this will be the answer. */
static const char *take_begin(Following *following, const Event *event, Record answered)
{
    Thread *thread = event->thread;
    Record *record = &thread->present;

    if (thread->open != NULL || thread->dying_place != 0)
        return thread->open != NULL ? cancelled : behind_end;
    *record = (Record){
        .begin_place = event->place, .begin_time = event->time, .thread = thread, .what = event->what,
        .object = event->object, .mutex = event->mutex, .deadline = event->deadline, .bad_time = event->bad_time,
        .caller = event->caller, .answer_place = answered.answer_place, .answer = answered.answer,
    };
    thread->in_call = true;
    if (event->what == CALL_SETPRIO) {
        record->priority = event->priority;
        meet_thread(record->named, event->place);
        add_thread(&following->history, record->named);
    } else if (is_left_out_later(record)) {
        return left_out_later;
    }
    pass_time(&following->history, record, event->place);
    if (!is_written(record))
        return NULL;
    note_missed(&following->history, record, event->place);
    write_begun(following, record);
    return NULL;
}

static void tell_dying(Thread *thread, uint64_t place)
{
    if (thread->number != 0 && thread->dying_place == 0)
        write_dying(thread);
    thread->dying_place = place;
}

/* Before the answer that shows that another thread has ended. */
static const char *tell_who_ended(const Record *record)
{
    Thread *ended = NULL;

    if (record->what == CALL_SETPRIO && record->answer == ESRCH)
        ended = record->named;
    else if (record->what <= CALL_TIMEDWAIT && record->answer == EOWNERDEAD)
        ended = is_wait(record) ? record->mutex->holder : record->object->holder;
    if (ended == NULL || ended == record->thread || ended->dying_place != 0)
        return NULL;
    if (!ended->is_seen_dying)
        return record->answer == EOWNERDEAD ? unseen_end : NULL;
    tell_dying(ended, record->answer_place);
    return NULL;
}

static const char *write_answered(History *history, Record *record)
{
    const char *why = tell_who_ended(record);

    if (why != NULL)
        return why;
    note_missed(history, record, record->answer_place);
    write_call(history, record, record->answer_place);
    return NULL;
}

static const char *take_answer(Following *following, const Event *event)
{
    Thread *thread = event->thread;
    Record *record = &thread->present;

    if (!thread->in_call)
        return NULL;
    record->answer = event->answer;
    record->found_free = event->found_free;
    record->answer_time = event->time;
    record->answer_place = event->place;
    if (thread->open != NULL && record->what != CALL_SETPRIO && is_left_out_later(record))
        return left_out_later;
    if (thread->open != NULL && !is_written(record))
        return refused;
    thread->in_call = false;
    pass_time(&following->history, record, event->place);
    if (thread->open != NULL)
        return write_answered(&following->history, record);
    note_dropped(&following->history, record);
    note_passed(&following->history, record);
    return NULL;
}

static const char *take_dying(Thread *thread)
{
    thread->is_seen_dying = true;
    return thread->open != NULL ? cancelled : NULL;
}

static const char *take_end(Thread *thread, uint64_t place)
{
    if (thread->open != NULL)
        return cancelled;
    tell_dying(thread, place);
    if (!thread->has_end)
        write_end(thread);
    return NULL;
}

static const char *take_event(Following *following, const Event *event, Record answered)
{
    History *history = &following->history;
    Record passed = {.begin_place = event->place, .begin_time = event->time, .what = event->what};

    history->start = history->start == 0 ? event->time : history->start;
    if (ticks_of(history, event->time) >= UINT32_MAX)
        return "it takes more than 71 minutes";
    if (event->what <= CALL_SETPRIO)
        return event->is_answer ? take_answer(following, event) : take_begin(following, event, answered);
    pass_time(history, &passed, event->place);
    if (event->what == THREAD_DYING)
        return take_dying(event->thread);
    return event->what == THREAD_ENDED ? take_end(event->named, event->place) : NULL;
}

/* NULL: it isn't there yet, or can't be read. */
static const Slot *slot_at(Following *following, uint64_t place)
{
    uint64_t number = part_of(place);
    Mapped *at = &following->mapped[number % MAPPED];

    if (at->number != number) {
        if (atomic_load(&watched->last_part) < number)
            return NULL;
        if (at->number != 0)
            munmap(at->head, SIZE_OF_PART);
        following->status = read_part(number, &at->head);
        at->number = following->status == WRITTEN ? number : 0;
    }
    return at->number == 0 ? NULL : &slots_of(at->head)[(place - 1) % EVENTS_OF_PART];
}

static bool is_published(const Slot *slot)
{
    return atomic_load_explicit(&slot->is_there, memory_order_acquire) != 0;
}

/* Whether the begin is one whose answer says if it has lines. */
static bool asks_for_answer(const Slot *slot)
{
    return !slot->is_answer && slot->what <= CALL_SETPRIO && (slot->what == CALL_SETPRIO || slot->bad_time);
}

/* Of the call that begins in this slot, up to the end of the next part; its place stays 0 if the answer isn't there. */
static Look find_answer(Following *following, const Slot *begin, Record *answered)
{
    uint32_t thread = begin->thread;
    uint64_t place = following->place, last = part_of(place) + 1;

    while (part_of(++place) <= last) {
        const Slot *slot = place > atomic_load(&watched->next_place) ? NULL : slot_at(following, place);
        if (slot == NULL)
            return NOT_YET;
        if (!is_published(slot) || slot->thread != thread)
            continue;
        answered->answer = slot->answer;
        answered->answer_place = slot->is_answer ? place : 0;
        return READ;
    }
    return READ;
}

/* What was read may be damaged. */
static bool is_sound(const Event *event)
{
    bool names_thread = event->what == CALL_SETPRIO || event->what == THREAD_ADDED || event->what == THREAD_ENDED;

    return !names_thread || is_of_run(event->named, sizeof(Thread));
}

static Look take_slot(Following *following, const Slot *slot)
{
    Record answered = {.answer_place = 0};
    Event event;

    if (asks_for_answer(slot) && find_answer(following, slot, &answered) == NOT_YET && !following->is_over)
        return following->status == WRITTEN ? NOT_YET : ENDS;
    meet_thread(of_run(slot->thread, sizeof(Thread)), following->place);
    if (!read_slot(slot, following->place, &event) || !is_sound(&event))
        return READ;
    following->why = take_event(following, &event, answered);
    if (following->history.no_memory)
        following->status = OUT_OF_MEMORY;
    return following->why == NULL && following->status == WRITTEN ? READ : ENDS;
}

/* What has a place and isn't there when the program has gone isn't in the history. */
static Look take_published(Following *following)
{
    while (!is_stopped) {
        uint64_t lost = atomic_load(&watched->lost_place);
        const Slot *slot = lost != 0 && following->place >= lost ? NULL : slot_at(following, following->place);
        if (slot == NULL)
            return lost != 0 || following->is_over || following->status != WRITTEN ? ENDS : NOT_YET;
        bool is_there = is_published(slot);
        if (!is_there && !following->is_over)
            return NOT_YET;
        if (is_there) {
            Look look = take_slot(following, slot);
            if (look != READ)
                return look;
        }
        following->place++;
    }
    return ENDS;
}

/* What the program has counted is said at the end. */
static void say_passed(Following *following)
{
    memcpy(run->counts, watched->counts, sizeof run->counts);
    memcpy(run->shards, watched->shards, sizeof run->shards);
    for (Reason reason = KEPT; reason < REASONS; reason++)
        atomic_fetch_add(&run->reasons[reason], atomic_load(&watched->reasons[reason]));
    atomic_store(&run->lost_place, atomic_load(&watched->lost_place));
    tell_passed(&following->history, write_comment);
    say_left_out(&following->history);
}

static int end_history(Following *following)
{
    if (following->status != WRITTEN)
        return following->status;
    if (following->history.start == 0)
        return NO_CALL;
    say_passed(following);
    if (following->why != NULL) {
        refuse_by("the history ends before place %lu: %s; join the whole when the program has ended",
                  (unsigned long)following->place, following->why);
        return NOWHERE;
    }
    if (is_stopped)
        refuse_by("ended by a signal: the history ends before place %lu", (unsigned long)following->place);
    return WRITTEN;
}

static bool make_room(History *history)
{
    history->least_deadline = UINT64_MAX;
    history->waiting = map_memory(size_of_run / sizeof(Thread) * sizeof(Thread *));
    return history->waiting != NULL;
}

static int follow_to_end(Following *following, const char *run_name)
{
    if (!make_room(&following->history))
        return OUT_OF_MEMORY;
    while (take_published(following) == NOT_YET) {
        if (write_text_so_far() != 0)
            break;
        following->is_over = has_gone(run_name);
        if (!following->is_over)
            rest_between_looks();
    }
    return end_history(following);
}

int follow_run(const char *run_name)
{
    static Following following = {.place = 1, .status = WRITTEN};

    int status = follow_to_end(&following, run_name);
    int why = close_text(history_file);
    if (why != 0)
        return refuse_by("%s: %s", history_file, strerror(why));
    return status;
}

int begin_to_follow(void)
{
    stop_at_signals();
    int why = open_growing_text(history_file);
    return why == 0 ? WRITTEN : refuse_by("%s: %s", history_file, strerror(why));
}
