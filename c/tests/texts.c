/* Bytes in, bytes out: a text that fits, one that doesn't, faults and differences. */
#include "expect.h"
#include "jobs.h"

enum { ROOM = 256 };

/* A job writes this of a text, into just as much room, and nothing where a byte is missing. */
static void expect_text(int line, job *does, const char *text, uint32_t ended, const char *out)
{
    uint8_t room[ROOM], before[ROOM];
    size_t length = strlen(out);
    pif_text is;

    memset(before, 7, ROOM);
    memset(room, 7, ROOM);
    is = does(text, room, length);
    expect_true(line, "the end", is.ended == ended && is.wanted == length);
    expect_true(line, "the text", memcmp(room, out, length) == 0);
    expect_true(line, "what stands behind it", memcmp(room + length, before, ROOM - length) == 0);
    if (length == 0)
        return;
    memset(room, 7, ROOM);
    is = does(text, room, length - 1);
    expect_true(line, "the end without room", is.ended == ended && is.wanted == length);
    expect_true(line, "the room that is too small", memcmp(room, before, ROOM) == 0);
}

#define TEXT(does, text, ended, out) expect_text(__LINE__, does, text, ended, out)

#define PROGRAM "thread 10\ndo t1: set x1 1\n"
#define WAIT "thread 10\nmutex normal\ncond m1\nbegin t1 lock m1\nanswer t1 0\nbegin t1 wait c1 m1\nanswer t1 0\n"

#define CALL "thread 10\nbegin t1 setprio t1 20\n"

#define CORE "  t1: priority 10; ready\n  run queue: t1\n"
#define FIRST "> thread 10\nt1\n" CORE "\n"

/* Programs, stories that are shown, and least sets, also by options; of an options struct that ends behind its size
   nothing else is read. */
static void more_texts(void)
{
    TEXT(explores, PROGRAM, PIF_WHOLE, "t1; x1 = 1\n1 outcomes, 2 states, 1 steps\n");
    TEXT(explores_by_options, PROGRAM, PIF_WHOLE, "t1; x1 = 1\n1 outcomes, 2 states, 1 steps\n");
    TEXT(explores, PROGRAM "finally: x1 = 1\n", PIF_WHOLE,
         "t1; x1 = 1\nkept at 3\n1 outcomes, 2 states, 1 steps\n");
    TEXT(explores, "thread 10\ndo\n", PIF_FAULT, "fault 2 command\n");
    TEXT(shows_changes, "thread 10\npick\n", PIF_WHOLE, FIRST "> pick\nt1\n\n");
    TEXT(shows_all, "thread 10\npick\n", PIF_WHOLE, FIRST "> pick\nt1\n" CORE "\n");
    TEXT(shows_all_by_options, "thread 10\npick\n", PIF_WHOLE, FIRST "> pick\nt1\n" CORE "\n");
    TEXT(shows_json, "pick\n", PIF_WHOLE,
         "{\"line\":1,\"command\":\"pick\",\"answer\":{\"text\":\"none\"},\"time\":0,\"threads\":[],\"mutexes\":[],"
         "\"conds\":[],\"run_queue\":[],\"chains\":[]}\n");
    TEXT(shows_dot, "pick\n", PIF_WHOLE, "digraph waiting {\n  rankdir=LR\n  node [fontname=\"sans-serif\"]\n}\n");
    TEXT(shows_json, "thred 10\n", PIF_FAULT, "");
    TEXT(shows_changes, "# low\nthred 10\n", PIF_FAULT, "> thred 10\nfault 1 command\n");
    TEXT(finds_least, WAIT, PIF_WHOLE, "legal 7, 2 calls, with spurious\n");
    TEXT(finds_least_by_options, WAIT, PIF_WHOLE, "legal 7, 2 calls, with spurious\n");
    TEXT(finds_least, CALL, PIF_WHOLE, "legal 2, 1 call\n");
    TEXT(judges_by_options, CALL, PIF_WHOLE, "legal 2, 1 call\nopen at the end: t1 setprio t1 20\n");
}

int main(void)
{
    more_texts();
    TEXT(runs, "", PIF_WHOLE, "");
    TEXT(runs, "thread 10\nmutex normal\ncall t1 lock m1\nword m1\n", PIF_WHOLE, "t1\nm1\nanswer 0\n0x00000001\n");
    TEXT(runs, "thread 10\nthred 10\n", PIF_FAULT, "t1\nfault 2 command\n");
    TEXT(runs, "thread 10", PIF_FAULT, "fault 1 cut\n");
    TEXT(checks, "# a story\nthread 10 = t1\n", PIF_WHOLE, "ok mine 1\n");
    TEXT(checks, "thread 10 = t2\n", PIF_DIFFERS,
         "mine: differs 1: thread 10 = t2, but the core gives t1\n");
    TEXT(checks, "thread\n", PIF_FAULT, "mine: fault 1 command: thread\n");
    TEXT(replays, "pif-trace 2\nthread 10 = t1\n", PIF_WHOLE, "same 1\n");
    TEXT(replays, "pif-trace 2\nthread 10 = t2\n", PIF_DIFFERS, "differs 2 t1\n");
    TEXT(replays, "thread 10 = t1\n", PIF_FAULT, "fault 1 command\n");
    TEXT(judges, "thread 10\nmutex normal\nbegin t1 lock m1\nanswer t1 0\n", PIF_WHOLE, "legal 4, 1 call\n");
    TEXT(judges, "thread 10\nmutex normal\nbegin t1 lock m1\nanswer t1 16\n", PIF_DIFFERS,
         "illegal at 4: answer t1 16\npossible there: 0\nits call began at 3: begin t1 lock m1\n");
    TEXT(judges, "tick 5\ntick 4\n", PIF_MISTAKE, "log 2: refused past\n");
    TEXT(judges_in_one_state, "thread 10\nmutex normal\nbegin t1 lock m1\nanswer t1 0\n", PIF_UNDECIDED,
         "legal up to 3; undecided from 4: answer t1 0; found there: none\n");
    TEXT(judges_with_witness, "# seen\nthread 10\ntick 5\nprio t1 10\n", PIF_UNDECIDED,
         "legal 4, with no call\nthread 10\ntick 5\nprio t1 10\n");
    TEXT(judges, "thread 10\nlock m1\n", PIF_FAULT, "fault 2 command\n");
    return outcome();
}
