/* A log of calls for an implementation of your own, on bare metal too: a ring in memory, written out as a history.

   It needs a C99 compiler, and no library, no allocation and no lock. Before it is included say how to count:

       #define PIF_COUNTER() my_counter()
       #include "pif_record.h"

   PIF_COUNTER() answers 1, 2, 3 and so on, each number once, whichever thread or interrupt asks: an atomic addition
   with sequential consistency, or an addition while interrupts are off. In one source file stands before it

       #define PIF_RECORD_HERE

   which puts the memory there. If calls have deadlines, say there too how to read the time:

       #define PIF_CLOCK() my_microseconds()

   It is read after each stamp, and counts as the deadlines of `timedlock` and `timedwait` do, in whole units of which
   none is begun: rounded up, where deadlines are rounded down. Then the dump has the ticks. It must not go back to 0
   between PIF_FORGET() and the dump. Now say

       PIF_ADD("thread %u", priority);             what there is, from one thread at a time: threads, mutexes
       PIF_ADD("mutex normal robust");             and variables, each numbered from 1 in this order; `none` stands
                                                   behind a mutex that lends no priority: "mutex normal none"
       PIF_ADD("# m%u is uart_lock", m);           what one is called; it counts as one that is added
       PIF_BEGIN(t, "lock m%u", m);                before the call is entered
       PIF_ANSWER(t, a);                           after it has returned a: 0, or the number of an error
       PIF_LINE("tick %u", time);                  any other line of a history: tick, dying, end, rests,
                                                   prio, halted, resumed, process
       PIF_FORGET();                               now all is as it was added: start anew here
       lost = pif_dump(put);                       writes it, a character at a time, while nothing else is recorded

   A line has up to four numbers, each by %u. Its text stays where it is and isn't copied.

   Call PIF_FORGET() only while every mutex is free, no call is open, each robust mutex is consistent, no thread is
   dying or has ended, and each thread has the priority with which it was added. Else right answers may be judged
   illegal.
   Without PIF_CLOCK() write the time again after it, by PIF_LINE("tick %u", time).

   If more lines than PIF_RECORD_LINES came since the last PIF_FORGET, the first of them are lost. So is a line over
   which a thread wrote its own a whole round of the ring late. From the second round on a line that a stopped thread
   hasn't written yet counts as lost, too. Lines that are missing at the end don't count: what stands before them is
   whole. If more threads, mutexes and variables than PIF_RECORD_ADDED (64) are added, the last of them are lost. Then
   the dump is no whole history: it says so in comments, and answers how many lines are lost. Define other numbers
   before the header is included. */
#ifndef PIF_RECORD_H
#define PIF_RECORD_H

#ifndef PIF_COUNTER
#error "define PIF_COUNTER() before pif_record.h is included"
#endif

#ifndef PIF_RECORD_LINES
#define PIF_RECORD_LINES 4096 /* of calls, kept in the ring */
#endif

#ifndef PIF_RECORD_ADDED
#define PIF_RECORD_ADDED 64 /* threads, mutexes and variables */
#endif

#define PIF_RECORD_NUMBERS 4

#ifndef PIF_CLOCK
#define PIF_CLOCK() 0
#endif

#ifdef __cplusplus
extern "C" {
#endif

#ifdef __GNUC__
#define PIF_RECORD_PRINTF(text, first) __attribute__((format(printf, text, first)))
#else
#define PIF_RECORD_PRINTF(text, first)
#endif

#define PIF_ADD(...) pif_add(__VA_ARGS__)
#define PIF_BEGIN(thread, ...) pif_note(PIF_COUNTER(), "begin t", (thread), __VA_ARGS__)
#define PIF_ANSWER(thread, answer) pif_note(PIF_COUNTER(), "answer t", (thread), "%u", (unsigned)(answer))
#define PIF_LINE(...) pif_note(PIF_COUNTER(), (const char *)0, 0, __VA_ARGS__)
#define PIF_FORGET() pif_forget(PIF_COUNTER())

void pif_add(const char *format, ...) PIF_RECORD_PRINTF(1, 2);
void pif_note(unsigned long place, const char *front, unsigned thread, const char *format, ...)
    PIF_RECORD_PRINTF(4, 5);
void pif_forget(unsigned long place);
unsigned long pif_dump(void (*put)(char));

#ifdef PIF_RECORD_HERE

#include <stdarg.h>

/* A line is whole for whoever finds its place, also on another processor: the place is stored with release, and read
   with acquire. While the line is written its place is 0, and that is stored before all else. A compiler without these
   stores has to keep the order of volatile accesses and the calls around them. */
#if defined __GNUC__ && __GCC_ATOMIC_LONG_LOCK_FREE == 2
#define PIF_PUBLISH(line, number) __atomic_store_n(&(line)->place, (number), __ATOMIC_RELEASE)
#define PIF_PLACE_OF(line) __atomic_load_n(&(line)->place, __ATOMIC_ACQUIRE)
#define PIF_OPEN(line) \
    (__atomic_store_n(&(line)->place, 0, __ATOMIC_RELAXED), __atomic_thread_fence(__ATOMIC_RELEASE))
#else
#define PIF_PUBLISH(line, number) ((line)->place = (number))
#define PIF_PLACE_OF(line) ((line)->place)
#define PIF_OPEN(line) ((line)->place = 0)
#endif

typedef struct {
    volatile unsigned long place; /* 0: nothing stands here, or it is being written */
    const char *front;            /* and the thread behind it; or none */
    unsigned thread;
    unsigned time; /* read behind the stamp */
    const char *format;
    unsigned numbers[PIF_RECORD_NUMBERS];
} PifLine;

static PifLine pif_lines[PIF_RECORD_LINES], pif_added[PIF_RECORD_ADDED];
static unsigned pif_added_count;
static unsigned long pif_not_added;
static unsigned long pif_first = 1;

static void pif_keep(PifLine *line, const char *format, va_list numbers)
{
    unsigned count = 0;

    line->format = format;
    for (const char *at = format; *at != '\0'; at++)
        if (at[0] == '%' && at[1] == 'u' && count < PIF_RECORD_NUMBERS)
            line->numbers[count++] = va_arg(numbers, unsigned);
}

void pif_add(const char *format, ...)
{
    va_list numbers;

    if (pif_added_count == PIF_RECORD_ADDED) {
        pif_not_added++;
        return;
    }
    va_start(numbers, format);
    pif_keep(&pif_added[pif_added_count++], format, numbers);
    va_end(numbers);
}

/* A place is given to one thread, so no other one writes this line until the ring has gone round. */
void pif_note(unsigned long place, const char *front, unsigned thread, const char *format, ...)
{
    PifLine *line = &pif_lines[place % PIF_RECORD_LINES];
    va_list numbers;

    PIF_OPEN(line);
    line->front = front;
    line->thread = thread;
    line->time = PIF_CLOCK();
    va_start(numbers, format);
    pif_keep(line, format, numbers);
    va_end(numbers);
    PIF_PUBLISH(line, place);
}

void pif_forget(unsigned long place) { pif_first = place + 1; }

static void pif_put_number(void (*put)(char), unsigned long number)
{
    if (number >= 10)
        pif_put_number(put, number / 10);
    put((char)('0' + number % 10));
}

static void pif_put_text(void (*put)(char), const char *text)
{
    while (*text != '\0')
        put(*text++);
}

static void pif_put_line(void (*put)(char), const PifLine *line)
{
    unsigned count = 0;

    if (line->front != 0) {
        pif_put_text(put, line->front);
        pif_put_number(put, line->thread);
        put(' ');
    }
    for (const char *at = line->format; *at != '\0'; at++) {
        if (at[0] == '%' && at[1] == 'u' && count < PIF_RECORD_NUMBERS) {
            pif_put_number(put, line->numbers[count++]);
            at++;
        } else {
            put(*at);
        }
    }
    put('\n');
}

static unsigned long pif_last(void)
{
    unsigned long last = 0, place;

    for (unsigned at = 0; at < PIF_RECORD_LINES; at++)
        if ((place = PIF_PLACE_OF(&pif_lines[at])) > last)
            last = place;
    return last;
}

/* The deadline of a timed call that begins at this line; 0 if none does. It is the last number. */
static unsigned pif_deadline(const PifLine *line)
{
    unsigned count = 0;

    if (line->front == 0 || line->format[0] != 't' || line->format[1] != 'i')
        return 0;
    for (const char *at = line->format; *at != '\0'; at++)
        count += at[0] == '%' && at[1] == 'u' && count < PIF_RECORD_NUMBERS;
    return count == 0 ? 0 : line->numbers[count - 1];
}

/* What the dump knows of times at a line. No line before `open` has a deadline that is greater than the tick. */
typedef struct {
    unsigned greatest, tick, next;
    unsigned long open;
} PifTimes;

/* The next deadline behind the tick, of those up to this line; the greatest number if there is none. */
static void pif_find_next(PifTimes *times, unsigned long last)
{
    while (times->open <= last && pif_deadline(&pif_lines[times->open % PIF_RECORD_LINES]) <= times->tick)
        times->open++;
    times->next = -1u;
    for (unsigned long place = times->open; place <= last; place++) {
        unsigned deadline = pif_deadline(&pif_lines[place % PIF_RECORD_LINES]);
        if (deadline > times->tick && deadline < times->next)
            times->next = deadline;
    }
}

/* A tick stands before the first line whose greatest time reaches a deadline: all before it was done by then. */
static void pif_put_tick(void (*put)(char), PifTimes *times, unsigned long place)
{
    const PifLine *line = &pif_lines[place % PIF_RECORD_LINES];
    unsigned deadline = pif_deadline(line);

    if (line->time > times->greatest)
        times->greatest = line->time;
    if (deadline > times->tick && deadline < times->next)
        times->next = deadline;
    if (times->greatest <= times->tick || times->greatest < times->next)
        return;
    pif_put_text(put, "tick ");
    pif_put_number(put, times->greatest);
    put('\n');
    times->tick = times->greatest;
    pif_find_next(times, place);
}

static void pif_put_lost(void (*put)(char), const char *comment, unsigned long lost)
{
    if (lost == 0)
        return;
    pif_put_text(put, comment);
    pif_put_number(put, lost);
    put('\n');
}

/* How many lines are lost, with those before the first. In the first round of the ring nothing was written over: a line
   that isn't there is of a thread that was stopped before it could write, and which hasn't gone on. */
static unsigned long pif_put_lines(void (*put)(char), unsigned long first, unsigned long last, unsigned long before)
{
    PifTimes times = {0, 0, -1u, first};
    unsigned long lost = 0;

    for (unsigned long place = first; place <= last; place++) {
        if (PIF_PLACE_OF(&pif_lines[place % PIF_RECORD_LINES]) != place) {
            before += place > PIF_RECORD_LINES;
            continue;
        }
        pif_put_lost(put, "# lost before this line: ", before);
        lost += before;
        before = 0;
        pif_put_tick(put, &times, place);
        pif_put_line(put, &pif_lines[place % PIF_RECORD_LINES]);
    }
    return lost;
}

/* How many lines are lost. */
unsigned long pif_dump(void (*put)(char))
{
    unsigned long last = pif_last(), before = 0;

    pif_put_lost(put, "# not added, PIF_RECORD_ADDED is too small: ", pif_not_added);
    for (unsigned at = 0; at < pif_added_count; at++)
        pif_put_line(put, &pif_added[at]);
    if (last >= pif_first && last - pif_first >= PIF_RECORD_LINES)
        before = last - pif_first - PIF_RECORD_LINES + 1;
    return pif_not_added + pif_put_lines(put, pif_first + before, last, before);
}

#endif

#ifdef __cplusplus
}
#endif

#endif
