/* The driver for targets. One target is a core itself, with which nothing may differ; it is made wrong in five ways, and
   the story of each has to be one that pif_check finds right, and as short as it can be. */
#include <string.h>

#include "expect.h"
#include "pif_target.h"

/* How a target is wrong. */
enum slip { NONE, DENIES_CYCLES, FORGETS_BOOSTS, NEVER_DIES, LOSES_SIGNALS, IGNORES_TIME };

struct wrong_core {
    pif_core core;
    enum slip slip;
};

static struct wrong_core *of(void *target)
{
    return target;
}

static void reset(void *target)
{
    pif_core_free(&of(target)->core);
    TRUE(pif_core_new(&of(target)->core, 64, 64, 64, 1000) == PIF_OK);
}

static void add_thread(void *target, uint32_t thread, uint32_t prio)
{
    NUMBER(pif_add_thread(&of(target)->core, prio), PIF_OK, thread);
}

static void add_mutex(void *target, uint32_t mutex, uint32_t kind, bool robust)
{
    NUMBER(pif_add_mutex(&of(target)->core, kind, robust), PIF_OK, mutex);
}

static void add_cond(void *target, uint32_t cond, uint32_t mutex)
{
    NUMBER(pif_add_cond(&of(target)->core, mutex), PIF_OK, cond);
}

static pif_seen call(void *target, uint32_t thread, pif_request request)
{
    if (of(target)->slip == LOSES_SIGNALS && request.call == PIF_SIGNAL) {
        pif_seen done = {PIF_ANSWERED, PIF_DONE};
        return done;
    }
    pif_seen seen = pif_call(&of(target)->core, thread, request);
    if (of(target)->slip == DENIES_CYCLES && seen.what == PIF_ANSWERED && seen.detail == PIF_EDEADLK)
        seen.detail = PIF_DONE;
    return seen;
}

static pif_seen finish(void *target, uint32_t thread)
{
    return pif_finish(&of(target)->core, thread);
}

static void end(void *target, uint32_t thread)
{
    if (of(target)->slip != NEVER_DIES)
        pif_end(&of(target)->core, thread);
}

static void tick(void *target, uint32_t time)
{
    if (of(target)->slip != IGNORES_TIME)
        pif_tick(&of(target)->core, time);
}

static uint32_t priority(void *target, uint32_t thread)
{
    pif_core *core = &of(target)->core;

    return (of(target)->slip == FORGETS_BOOSTS ? pif_base(core, thread) : pif_effective(core, thread)).number;
}

static uint32_t owner(void *target, uint32_t mutex)
{
    return pif_owner(&of(target)->core, mutex).thread;
}

static struct {
    char text[8192];
    size_t length;
    unsigned lines;
} story;

static void keep(void *to, const char *text, size_t length)
{
    TRUE(to == &story && story.length + length < sizeof story.text);
    memcpy(story.text + story.length, text, length);
    story.length += length;
    story.lines++;
}

/* The lines of the story behind its first, if something differs; else 0. */
static unsigned tried(enum slip slip, const pif_trying *how)
{
    struct wrong_core core = {{0}, slip};
    pif_target target = {sizeof target, &core, reset, add_thread, add_mutex, add_cond, call, finish, end, tick, priority,
                         owner};
    uint8_t room[8192];

    memset(&story, 0, sizeof story);
    uint32_t is = pif_try_target(&target, how, keep, &story);
    pif_core_free(&core.core);
    TRUE(is == (slip == NONE ? PIF_SAME : PIF_DIFFERENT));
    if (is != PIF_DIFFERENT)
        return 0;
    TRUE(strncmp(story.text, "# in the last line the target says: ", 36) == 0);
    pif_text told = pif_check((const uint8_t *)"story", 5, (const uint8_t *)story.text, story.length, room, sizeof room);
    if (told.ended != PIF_WHOLE)
        printf("%s", story.text);
    TRUE(told.ended == PIF_WHOLE);
    return story.lines - 1;
}

/* What the shortest story of each slip has: a thread that locks an errorcheck mutex twice; two threads, a mutex, two
   calls and the question; a thread that locks a mutex and ends, and the question; a thread that waits, one that signals,
   and the question; a thread that locks until a time which comes, and another that owns the mutex. A story that is found
   may have some lines more. */
static void stories(void)
{
    static const struct {
        enum slip slip;
        unsigned least;
    } rows[] = {{DENIES_CYCLES, 4}, {FORGETS_BOOSTS, 6}, {NEVER_DIES, 5}, {LOSES_SIGNALS, 7}, {IGNORES_TIME, 6}};
    pif_trying how = {sizeof how, 1, 300, 60, 0, 0, 2, 1};

    TRUE(tried(NONE, &how) == 0);
    for (size_t row = 0; row < sizeof rows / sizeof rows[0]; row++) {
        unsigned lines = tried(rows[row].slip, &how);
        TRUE(rows[row].least <= lines && lines <= rows[row].least + 3);
    }
}

static void what_is_usual(void)
{
    TRUE(tried(NONE, NULL) == 0);
    TRUE(tried(FORGETS_BOOSTS, NULL) == 6);
    TRUE(strstr(story.text, "prio t") != NULL);
}

static void what_is_missing(void)
{
    pif_target target = {sizeof target, NULL, reset, add_thread, add_mutex, NULL, call, NULL, NULL, NULL, NULL, NULL};
    pif_trying how = {sizeof how, 1, 1, 1, 1, 1, 1, 0};

    TRUE(pif_try_target(NULL, NULL, NULL, NULL) == PIF_TRY_INVALID);
    TRUE(pif_try_target(&target, NULL, NULL, NULL) == PIF_TRY_INVALID);
    target.finish = finish;
    TRUE(pif_try_target(&target, &how, NULL, NULL) == PIF_TRY_INVALID);
    target.size = 8;
    TRUE(pif_try_target(&target, NULL, NULL, NULL) == PIF_TRY_INVALID);
}

int main(void)
{
    stories();
    what_is_usual();
    what_is_missing();
    return outcome();
}
