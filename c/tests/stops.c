/* Jobs that are stopped: by a function that says no, and since their seconds are over. */
#include <string.h>
#include <time.h>

#include "expect.h"
#include "jobs.h"

/* Five threads that change one variable again and again: far more states than are explored within a second. */
#define LONG "thread 10\nthread 10\nthread 10\nthread 10\nthread 10\n"

/* So many times more a job is told that it goes on; how often it asked. */
struct patience {
    unsigned left, asked;
};

static bool goes_on(void *to)
{
    struct patience *patience = to;
    uint8_t room[64];

    /* The library may be called here; nobody asks whether this goes on. */
    TRUE(runs("thread 10\n", room, sizeof room).ended == PIF_WHOLE);
    patience->asked++;
    if (patience->left == 0)
        return false;
    patience->left--;
    return true;
}

static pif_options patiently(struct patience *patience)
{
    pif_options how = {sizeof how, 0, 0, 0, 0, 0, goes_on, patience};

    return how;
}

static void taken(void *to, const char *text, size_t length)
{
    (void)text;
    *(size_t *)to += length;
}

#define HISTORY "thread 10\nmutex normal\nbegin t1 lock m1\nanswer t1 0\n"

/* Each job asks at its first request for memory, and none asks any more once it was told to stop. */
static void stopped_at_once(void)
{
    struct patience none = {0, 0};
    pif_options how = patiently(&none);
    uint8_t room[256];
    size_t length = 0;

    TRUE(pif_judge_with(bytes_of(HISTORY), strlen(HISTORY), &how, room, sizeof room).ended == PIF_INTERRUPTED);
    TRUE(none.asked == 1);
    TRUE(pif_explore_with(bytes_of("thread 10\n"), 10, &how, room, sizeof room).ended == PIF_INTERRUPTED);
    TRUE(pif_show_with(bytes_of("thread 10\n"), 10, &how, room, sizeof room).ended == PIF_INTERRUPTED);
    how.least = 1;
    pif_text told = pif_judge_to(bytes_of(HISTORY), strlen(HISTORY), &how, taken, &length);
    TRUE(told.ended == PIF_INTERRUPTED && told.wanted == 0 && length == 0);
    TRUE(none.asked == 4);
}

/* What was begun before goes on as if nobody had asked, and a job that was never told to stop ends well. */
static void goes_on_then(void)
{
    struct patience long_one = {4294967295u, 0};
    pif_options how = patiently(&long_one);
    uint8_t room[64];

    pif_text told = pif_judge_with(bytes_of(HISTORY), strlen(HISTORY), &how, room, sizeof room);
    TRUE(told.ended == PIF_WHOLE && memcmp(room, "legal 4, 1 call\n", 16) == 0);
    TRUE(long_one.asked > 0);
    TRUE(judges(HISTORY, room, sizeof room).ended == PIF_WHOLE);
}

static size_t long_program(char *program)
{
    size_t length = (size_t)sprintf(program, LONG);

    for (int thread = 1; thread <= 5; thread++) {
        length += (size_t)sprintf(program + length, "do t%d:", thread);
        for (int step = 1; step <= 8; step++)
            length += (size_t)sprintf(program + length, " set x1 %d%s", 10 * thread + step, step < 8 ? ";" : "\n");
    }
    return length;
}

/* The job is told to stop when it asks for the tenth time, and else after a second. */
static void stopped_later(void)
{
    static char program[4096];
    struct patience some = {9, 0};
    pif_options how = patiently(&some);
    uint8_t room[64];
    size_t length = long_program(program);
    time_t begun = time(NULL);

    how.states = 16777216;
    TRUE(pif_explore_with(bytes_of(program), length, &how, room, sizeof room).ended == PIF_INTERRUPTED);
    TRUE(some.asked == 10);
    how.goes_on = NULL;
    how.seconds = 1;
    TRUE(pif_explore_with(bytes_of(program), length, &how, room, sizeof room).ended == PIF_INTERRUPTED);
    TRUE(time(NULL) - begun < 60);
}

int main(void)
{
    stopped_at_once();
    goes_on_then();
    stopped_later();
    return outcome();
}
