/* Logs: the trace of a core is what docs/FORMATS.md says, and pif_replay finds it the same. */
#include <string.h>

#include "expect.h"
#include "pif_log.h"

static struct {
    char text[4096];
    size_t length;
    unsigned lines;
} trace;

static void keep(void *to, const char *text, size_t length)
{
    TRUE(to == &trace && trace.length + length < sizeof trace.text && text[length - 1] == '\n');
    memcpy(trace.text + trace.length, text, length);
    trace.length += length;
    trace.lines++;
}

/* What was logged since this was asked last. */
static void expect_logged(int line, const char *text)
{
    static size_t told;

    expect_true(line, text, strlen(text) == trace.length - told && memcmp(trace.text + told, text, strlen(text)) == 0);
    told = trace.length;
}

#define LOGGED(text) expect_logged(__LINE__, text)

static bool ends_in(const char *text)
{
    size_t length = strlen(text);

    return length <= trace.length && memcmp(trace.text + trace.length - length, text, length) == 0;
}

static void additions(const pif_log *log)
{
    NUMBER(pif_log_add_thread(log, 10), PIF_OK, 1);
    NUMBER(pif_log_add_thread(log, 20), PIF_OK, 2);
    LOGGED("thread 10 = t1\nthread 20 = t2\n");
    NUMBER(pif_log_add_thread(log, 10), PIF_TOO_MANY, 0);
    NUMBER(pif_log_add_thread(log, 100), PIF_BAD_PRIO, 0);
    NUMBER(pif_log_add_mutex(log, 3, false), PIF_INVALID, 0);
    NUMBER(pif_log_add_cond(log, 1), PIF_NO_MUTEX, 0);
    LOGGED("");
    NUMBER(pif_log_add_mutex(log, PIF_NORMAL, false), PIF_OK, 1);
    NUMBER(pif_log_add_mutex(log, PIF_RECURSIVE, true), PIF_OK, 2);
    NUMBER(pif_log_add_mutex(log, PIF_ERRORCHECK, true), PIF_OK, 3);
    NUMBER(pif_log_add_cond(log, 1), PIF_OK, 1);
    LOGGED("mutex normal = m1\nmutex recursive robust = m2\nmutex errorcheck robust = m3\ncond m1 = c1\n");
}

/* A call on a free mutex takes two steps, as the trace in docs/FORMATS.md has them. */
static void events(const pif_log *log)
{
    SEEN(pif_log_begin(log, 1, pif_lock(1)), PIF_BEGUN, 0);
    SEEN(pif_log_begin(log, 1, pif_lock(1)), PIF_REFUSED, PIF_BUSY);
    SEEN(pif_log_go(log, 1), PIF_WENT, 0);
    SEEN(pif_log_finish(log, 1), PIF_ANSWERED, PIF_DONE);
    SEEN(pif_log_finish(log, 1), PIF_REFUSED, PIF_IDLE);
    LOGGED("begin t1 lock m1 = begun\nbegin t1 lock m1 = refused busy\ngo t1 = went\ngo t1 = answer 0\n"
           "go t1 = refused idle\n");
    SEEN(pif_log_call(log, 2, pif_trylock(1)), PIF_ANSWERED, PIF_EBUSY);
    TRUE(ends_in("\ngo t2 = answer 16\n"));
    SEEN(pif_log_call(log, 2, pif_lock(1)), PIF_WAITS, 0);
    TRUE(ends_in("\ngo t2 = waits\n"));
    trace.text[trace.length] = 0;
    expect_logged(__LINE__, strstr(trace.text, "begin t2 trylock m1 = begun\n"));
    SEEN(pif_log_tick(log, 5), PIF_TICKED, 0);
    SEEN(pif_log_tick(log, 4), PIF_REFUSED, PIF_PAST);
    SEEN(pif_log_call(log, 3, pif_lock(1)), PIF_REFUSED, PIF_NO_SUCH);
    SEEN(pif_log_begin(log, 1, pif_lock(0)), PIF_UNNAMED, 0);
    SEEN(pif_log_go(log, 0), PIF_UNNAMED, 0);
    SEEN(pif_log_end(log, 2), PIF_ENDED, 0);
    SEEN(pif_log_end(log, 2), PIF_REFUSED, PIF_DEAD);
    LOGGED("tick 5 = ticked\ntick 4 = refused past\nbegin t3 lock m1 = refused nosuch\nend t2 = ended\n"
           "end t2 = refused dead\n");
}

/* Each call in its words, by a thread that has ended. Of what a call doesn't name nothing is told. */
static void requests(const pif_log *log)
{
    pif_request odd = {PIF_SIGNAL, 7, 1, 7, 7, 7};

    SEEN(pif_log_call(log, 2, pif_unlock(2)), PIF_REFUSED, PIF_DEAD);
    SEEN(pif_log_call(log, 2, pif_consistent(3)), PIF_REFUSED, PIF_DEAD);
    SEEN(pif_log_call(log, 2, pif_timedlock(1, 9)), PIF_REFUSED, PIF_DEAD);
    SEEN(pif_log_call(log, 2, pif_wait(1, 2)), PIF_REFUSED, PIF_DEAD);
    SEEN(pif_log_call(log, 2, pif_timedwait(1, 2, 4294967295)), PIF_REFUSED, PIF_DEAD);
    SEEN(pif_log_call(log, 2, odd), PIF_REFUSED, PIF_DEAD);
    SEEN(pif_log_call(log, 2, pif_broadcast(1)), PIF_REFUSED, PIF_DEAD);
    SEEN(pif_log_call(log, 2, pif_setprio(1, 99)), PIF_REFUSED, PIF_DEAD);
    LOGGED("begin t2 unlock m2 = refused dead\nbegin t2 consistent m3 = refused dead\n"
           "begin t2 timedlock m1 9 = refused dead\nbegin t2 wait c1 m2 = refused dead\n"
           "begin t2 timedwait c1 m2 4294967295 = refused dead\nbegin t2 signal c1 = refused dead\n"
           "begin t2 broadcast c1 = refused dead\nbegin t2 setprio t1 99 = refused dead\n");
}

static void is_replayed(void)
{
    char wanted[32];
    uint8_t room[32];

    snprintf(wanted, sizeof wanted, "same %u\n", trace.lines - 1);
    pif_text told = pif_replay((const uint8_t *)trace.text, trace.length, room, sizeof room);
    TRUE(told.ended == PIF_WHOLE && told.wanted == strlen(wanted) && memcmp(room, wanted, told.wanted) == 0);
}

int main(void)
{
    pif_core core = {0};
    pif_log log;

    TRUE(pif_core_log(&log, &core, 2, 3, 1, 5, NULL, NULL) == PIF_INVALID);
    TRUE(pif_core_log(&log, &core, 0, 3, 1, 5, keep, &trace) == PIF_INVALID);
    LOGGED("");
    TRUE(pif_core_log(&log, &core, 2, 3, 1, 5, keep, &trace) == PIF_OK);
    LOGGED("pif-trace 2\nlimits 2 3 1 5 = ok\n");
    TRUE(pif_core_log(&log, &core, 2, 3, 1, 5, keep, &trace) == PIF_FULL);
    additions(&log);
    events(&log);
    requests(&log);
    is_replayed();
    pif_core_free(&core);
    SEEN(pif_log_go(&log, 1), PIF_NOTHING, 0);
    LOGGED("");
    return outcome();
}
