/* A core whose trace is written as it is asked (include/pif_log.h). */
#include <stddef.h>

#include "lines.h"
#include "pif_log.h"

/* How many steps a whole call takes at most (pif_call). */
enum { MOST_STEPS = 24 };

static struct teller teller_of(const pif_log *log)
{
    struct teller teller = {log->sink, log->to, "", 0};

    return teller;
}

/* The first two lines: the version, and the limits. */
static void put_head(const pif_log *log, const uint32_t limits[4])
{
    struct teller teller = teller_of(log);

    put(&teller, "pif-trace 2");
    end_line(&teller);
    put(&teller, "limits");
    for (int place = 0; place < 4; place++)
        put_number(&teller, " ", limits[place]);
    put(&teller, " = ok");
    end_line(&teller);
}

uint32_t pif_core_log(pif_log *log, pif_core *core, uint32_t threads, uint32_t mutexes, uint32_t conds,
                      uint32_t signals, pif_sink *sink, void *to)
{
    const uint32_t limits[] = {threads, mutexes, conds, signals};
    const pif_log made = {core, sink, to};
    uint32_t is = sink == NULL ? PIF_INVALID : pif_core_new(core, threads, mutexes, conds, signals);

    if (is == PIF_OK) {
        *log = made;
        put_head(log, limits);
    }
    return is;
}

/* Ends the line of an addition with its number, if it was made. */
static pif_number added(struct teller *teller, const char *name, pif_number is)
{
    if (is.result == PIF_OK) {
        put_number(teller, name, is.number);
        end_line(teller);
    }
    return is;
}

pif_number pif_log_add_thread(const pif_log *log, uint32_t prio)
{
    struct teller teller = teller_of(log);

    put_number(&teller, "thread ", prio);
    return added(&teller, " = t", pif_add_thread(log->core, prio));
}

pif_number pif_log_add_mutex(const pif_log *log, uint32_t kind, bool robust)
{
    struct teller teller = teller_of(log);
    pif_number is = pif_add_mutex(log->core, kind, robust);

    if (is.result == PIF_OK)
        put_mutex(&teller, kind, robust);
    return added(&teller, " = m", is);
}

pif_number pif_log_add_cond(const pif_log *log, uint32_t mutex)
{
    struct teller teller = teller_of(log);

    put_number(&teller, "cond m", mutex);
    return added(&teller, " = c", pif_add_cond(log->core, mutex));
}

/* Ends the line of an event with what became of it, if it is one. */
static pif_seen ended(struct teller *teller, pif_seen seen)
{
    if (seen.what != PIF_NOTHING && seen.what != PIF_UNNAMED) {
        put(teller, " = ");
        put_seen(teller, seen);
        end_line(teller);
    }
    return seen;
}

pif_seen pif_log_begin(const pif_log *log, uint32_t thread, pif_request request)
{
    struct teller teller = teller_of(log);
    pif_seen seen = pif_begin(log->core, thread, request);

    if (seen.what == PIF_NOTHING || seen.what == PIF_UNNAMED)
        return seen;
    put_number(&teller, "begin t", thread);
    put_call(&teller, &request);
    return ended(&teller, seen);
}

pif_seen pif_log_go(const pif_log *log, uint32_t thread)
{
    struct teller teller = teller_of(log);

    put_number(&teller, "go t", thread);
    return ended(&teller, pif_go(log->core, thread));
}

pif_seen pif_log_end(const pif_log *log, uint32_t thread)
{
    struct teller teller = teller_of(log);

    put_number(&teller, "end t", thread);
    return ended(&teller, pif_end(log->core, thread));
}

pif_seen pif_log_tick(const pif_log *log, uint32_t time)
{
    struct teller teller = teller_of(log);

    put_number(&teller, "tick ", time);
    return ended(&teller, pif_tick(log->core, time));
}

pif_seen pif_log_finish(const pif_log *log, uint32_t thread)
{
    pif_seen seen = pif_log_go(log, thread);

    for (int steps = 1; steps < MOST_STEPS && seen.what == PIF_WENT; steps++)
        seen = pif_log_go(log, thread);
    return seen;
}

pif_seen pif_log_call(const pif_log *log, uint32_t thread, pif_request request)
{
    pif_seen seen = pif_log_begin(log, thread, request);

    return seen.what == PIF_BEGUN ? pif_log_finish(log, thread) : seen;
}
