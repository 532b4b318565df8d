/* A malloc that refuses the Nth request, for each N: a core that can't be made leaves an empty handle, and a text says
   that memory is wanting. The sanitizers see that nothing is lost or freed twice. */
#include <stdlib.h>

#include "expect.h"
#include "jobs.h"

/* The linker puts these in the place of malloc and realloc (--wrap). */
void *__real_malloc(size_t size);
void *__real_realloc(void *block, size_t size);

/* How many requests are granted from now on; -1 for all. */
static long granted = -1;

static bool grants(void)
{
    if (granted < 0)
        return true;
    if (granted == 0)
        return false;
    granted--;
    return true;
}

void *__wrap_malloc(size_t size)
{
    return grants() ? __real_malloc(size) : NULL;
}

void *__wrap_realloc(void *block, size_t size)
{
    return grants() ? __real_realloc(block, size) : NULL;
}

/* How many requests a new core takes. */
static long requests_of_a_core(void)
{
    pif_core core = {0};

    for (long most = 0;; most++) {
        granted = most;
        uint32_t made = pif_core_new(&core, 8, 8, 8, 8);
        granted = -1;
        if (made == PIF_OK) {
            NUMBER(pif_add_thread(&core, 10), PIF_OK, 1);
            pif_core_free(&core);
            return most;
        }
        TRUE(made == PIF_NO_MEMORY);
        NUMBER(pif_add_thread(&core, 10), PIF_NO_CORE, 0);
    }
}

/* How many requests a job takes that writes this of a text. */
static long requests_of(job *does, const char *text, const char *out)
{
    uint8_t room[256];

    for (long most = 0;; most++) {
        granted = most;
        pif_text told = does(text, room, sizeof room);
        granted = -1;
        if (told.ended == PIF_WHOLE) {
            TRUE(told.wanted == strlen(out) && memcmp(room, out, strlen(out)) == 0);
            return most;
        }
        TRUE(told.ended == PIF_OUT_OF_MEMORY || told.ended == PIF_UNWRITTEN);
        TRUE(told.wanted < strlen(out));
    }
}

int main(void)
{
    long core = requests_of_a_core();
    long run = requests_of(runs, "thread 10\nmutex normal\ncall t1 lock m1\n", "t1\nm1\nanswer 0\n");
    long replay = requests_of(replays, "pif-trace 2\nthread 10 = t1\n", "same 1\n");
    long check = requests_of(checks, "thread 10 = t1\n", "ok mine 1\n");
    long judge = requests_of(judges_with_witness, "thread 10\nbegin t1 setprio t1 20\n",
                             "legal 2, 1 call\nopen at the end: t1 setprio t1 20\nthread 10\nbegin t1 setprio t1 20\n");

    long least = requests_of(finds_least, "thread 10\nbegin t1 setprio t1 20\n", "legal 2, 1 call\n");
    long explore = requests_of(explores, "thread 10\ndo t1: set x1 1\n", "t1; x1 = 1\n1 outcomes, 2 states, 1 steps\n");
    long show = requests_of(shows_changes, "thread 10\n",
                            "> thread 10\nt1\n  t1: priority 10; ready\n  run queue: t1\n\n");

    TRUE(core > 1 && run > 1 && replay > 1 && check > 1 && judge > 1 && least > 1 && explore > 1 && show > 1);
    printf("requests: a core %ld, a script %ld, a trace %ld, a story %ld, a history %ld, its rules %ld, a program %ld, "
           "a story that is shown %ld\n", core, run, replay, check, judge, least, explore, show);
    return outcome();
}
