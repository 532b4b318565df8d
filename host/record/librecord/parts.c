/* A recording in parts: each event is written where its place is, in files that are mapped. So what is published stays,
   however the program ends. In the middle of a part the next one is made, so that nobody waits for it but where threads
   are faster than that. Then what stands behind those parts that are whole is written into the next, and they are
   unmapped. A part is whole when all of its events are published. */
#define _GNU_SOURCE
#include <errno.h>
#include <signal.h>
#include <string.h>
#include <sys/mman.h>

#include "record.h"

enum { MOST_MAPPED = 1024 };

typedef struct {
    uint64_t number;
    Head *head;
} Part;

uint64_t kept_parts; /* 0: all */

static _Atomic(Part *) parts[MOST_MAPPED]; /* by number; what has gone is still named there */
static _Atomic uint64_t passed;            /* so many parts are whole, and what stands behind them is written */
static _Atomic bool is_tended, is_made;

uint64_t part_of(uint64_t place) { return (place - 1) / EVENTS_OF_PART + 1; }

Slot *slots_of(Head *head) { return (Slot *)((char *)head + SIZE_OF_HEAD); }

Standing *standing_of(Head *head) { return (Standing *)((char *)head + SIZE_OF_PART - SIZE_OF_STANDING); }

static void note_made(uint64_t number)
{
    uint64_t last = atomic_load(&run->last_part);

    while (last < number && !atomic_compare_exchange_weak(&run->last_part, &last, number))
        ;
}

static Part *new_part(uint64_t number, int *why)
{
    Part *made = take_memory(sizeof *made);

    *why = ENOMEM;
    if (made == NULL || number > atomic_load(&passed) + MOST_MAPPED)
        return NULL;
    made->number = number;
    made->head = make_part(number, why);
    if (made->head == NULL)
        return NULL;
    note_made(number);
    return made;
}

static Part *find_part(uint64_t number)
{
    Part *present = atomic_load_explicit(&parts[number % MOST_MAPPED], memory_order_acquire);

    return present != NULL && present->number == number ? present : NULL;
}

/* Whoever makes one isn't interrupted, and isn't cancelled there; a thread that needs it waits meanwhile. */
static Part *make_or_find(uint64_t number, int *why)
{
    sigset_t all, before;
    int state, error = errno;

    sigfillset(&all);
    pthread_sigmask(SIG_BLOCK, &all, &before);
    pthread_setcancelstate(PTHREAD_CANCEL_DISABLE, &state);
    while (atomic_exchange(&is_made, true))
        rest();
    Part *found = find_part(number);
    if (found == NULL && (found = new_part(number, why)) != NULL)
        atomic_store_explicit(&parts[number % MOST_MAPPED], found, memory_order_release);
    atomic_store(&is_made, false);
    pthread_setcancelstate(state, NULL);
    pthread_sigmask(SIG_SETMASK, &before, NULL);
    errno = error;
    return found;
}

/* NULL: it can't be made, with `why`. */
static Part *the_part(uint64_t number, int *why)
{
    Part *present = find_part(number);

    return present != NULL ? present : make_or_find(number, why);
}

static bool is_whole(const Slot *slots)
{
    for (size_t i = 0; i < EVENTS_OF_PART; i++)
        if (atomic_load_explicit(&slots[i].is_there, memory_order_acquire) == 0)
            return false;
    return true;
}

/* Of a slot that is there. A detail is kept with its thread, for the begin behind it. */
bool read_slot(const Slot *slot, uint64_t place, Event *event)
{
    Thread *thread = of_run(slot->thread, sizeof *thread);

    if (thread == NULL || slot->what > DETAIL)
        return false;
    if (slot->what == DETAIL) {
        thread->deadline_of_next = slot->deadline;
        thread->caller_of_next = slot->caller;
        return false;
    }
    *event = (Event){
        .place = place, .time = slot->time, .thread = thread, .object = of_run(slot->object, sizeof(Object)),
        .mutex = of_run(slot->mutex, sizeof(Object)), .answer = slot->answer, .what = slot->what,
        .is_answer = slot->is_answer, .bad_time = slot->bad_time, .found_free = slot->found_free,
    };
    if (slot->what == CALL_SETPRIO)
        event->priority = slot->priority;
    else if (!slot->is_answer && slot->what <= CALL_SETPRIO) {
        event->deadline = thread->deadline_of_next;
        event->caller = thread->caller_of_next;
        thread->deadline_of_next = thread->caller_of_next = 0;
    }
    return event->object != NULL && (event->mutex != NULL || !is_wait_as(slot->what));
}

/* Whether there was room. */
static bool write_standing(Head *head)
{
    uint64_t count = count_standing();
    Standing *told = standing_of(head);
    uint64_t size = count * sizeof *told;

    if (size > SIZE_OF_STANDING || (size > PRESENT_OF_STANDING && !make_present(told, size)))
        return false;
    tell_standing(told);
    head->time_before = time_before;
    head->standing = count;
    atomic_store_explicit(&head->has_standing, true, memory_order_release);
    return true;
}

static void pass_slots(const Part *part)
{
    Event event;

    for (size_t i = 0; i < EVENTS_OF_PART; i++)
        if (read_slot(&slots_of(part->head)[i], part->head->first_place + i, &event))
            pass_event(&event);
}

/* Whether the part is whole, and what stands behind it is written. */
static bool pass_part(uint64_t number)
{
    int why;
    Part *part = the_part(number, &why), *next = the_part(number + 1, &why);

    if (part == NULL || next == NULL || !is_whole(slots_of(part->head)))
        return false;
    pass_slots(part);
    if (!write_standing(next->head)) {
        say("the recording ends here: no room for what stands before part ", number + 1, "");
        stop_recording();
        return false;
    }
    munmap(part->head, SIZE_OF_PART);
    atomic_store(&passed, number);
    return true;
}

static void drop_older(uint64_t number)
{
    uint64_t first = atomic_load(&run->first_part);

    while (kept_parts != 0 && first + kept_parts <= number && first <= atomic_load(&passed)) {
        atomic_store(&run->first_part, first + 1);
        drop_part(first);
        first++;
    }
}

/* One thread at a time; the others go on. */
static void tend(uint64_t number)
{
    int before = errno, why, state;

    the_part(number + 1, &why);
    if (atomic_exchange(&is_tended, true))
        return;
    pthread_setcancelstate(PTHREAD_CANCEL_DISABLE, &state);
    while (atomic_load(&passed) + 1 < number && atomic_load(&recording) && pass_part(atomic_load(&passed) + 1))
        ;
    drop_older(number);
    pthread_setcancelstate(state, NULL);
    atomic_store(&is_tended, false);
    errno = before;
}

static void end_at(uint64_t place, int why)
{
    static _Atomic bool is_said;

    lose(place);
    if (!atomic_exchange(&is_said, true))
        say_no_part(part_of(place), why);
}

void publish(uint64_t place, Slot slot)
{
    uint64_t number = part_of(place);
    int why = 0;
    Part *part = the_part(number, &why);

    if (part == NULL) {
        end_at(place, why);
        return;
    }
    Slot *at = &slots_of(part->head)[(place - 1) % EVENTS_OF_PART];
    memcpy(at, &slot, sizeof slot);
    atomic_store_explicit(&at->is_there, 1, memory_order_release);
    if ((place - 1) % EVENTS_OF_PART == EVENTS_OF_PART / 2)
        tend(number);
}
