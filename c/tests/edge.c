/* What the library has in C before its exports, and what the header has beside them: the version, names, a handle of
   malloc, and texts at null pointers. */
#include <string.h>

#include "expect.h"

#if !defined PIF_VERSION_NUMBER || PIF_VERSION_NUMBER < 10100
#error "the header has no number of its version"
#endif

static void the_version(void)
{
    unsigned first = 0, second = 0, third = 0;

    TRUE(sscanf(PIF_VERSION, "%u.%u.%u", &first, &second, &third) == 3);
    TRUE(10000 * first + 100 * second + third == PIF_VERSION_NUMBER);
    TRUE(pif_version() == PIF_VERSION_NUMBER);
}

static void names(void)
{
    TRUE(strcmp(pif_answer_name(PIF_DONE), "0") == 0);
    TRUE(strcmp(pif_answer_name(16), "EBUSY") == 0);
    TRUE(strcmp(pif_answer_name(2), "?") == 0);
    TRUE(strcmp(pif_result_name(PIF_NO_CORE), "PIF_NO_CORE") == 0);
    TRUE(strcmp(pif_result_name(9), "?") == 0);
    TRUE(strcmp(pif_what_name(PIF_WAITS), "PIF_WAITS") == 0);
    TRUE(strcmp(pif_what_name(9), "?") == 0);
    TRUE(strcmp(pif_refusal_name(PIF_PAST), "PIF_PAST") == 0);
    TRUE(strcmp(pif_refusal_name(0), "?") == 0);
}

static void a_handle_of_malloc(void)
{
    uint32_t result = 99;
    pif_core *core = pif_core_open(2, 1, 0, 1, &result);

    TRUE(core != NULL && result == PIF_OK);
    if (core == NULL)
        return;
    NUMBER(pif_add_thread(core, 10), PIF_OK, 1);
    TRUE(pif_core_new(core, 2, 1, 0, 1) == PIF_FULL);
    pif_core_close(core);
    core = pif_core_open(1, 1, 1, 1, NULL);
    TRUE(core != NULL);
    pif_core_close(core);
    TRUE(pif_core_open(0, 1, 1, 1, &result) == NULL && result == PIF_INVALID);
    TRUE(pif_core_open(0, 1, 1, 1, NULL) == NULL);
    pif_core_close(NULL);
}

static void expect_text(int line, pif_text is, uint32_t ended, size_t wanted)
{
    expect_true(line, "the end", is.ended == ended);
    expect_true(line, "the length", is.wanted == wanted);
}

#define TEXT(call, ended, wanted) expect_text(__LINE__, call, ended, wanted)

/* No text, no name and no room, each at a null pointer. With their line feeds `t1` has 3 bytes, `fault 1 command` 16,
   `ok  0` 6, `legal 0, with no call` 22, and `1 outcomes, 1 states, 0 steps` behind an empty line 31. */
static void null_pointers(void)
{
    uint8_t room[32];
    const uint8_t *thread = (const uint8_t *)"thread 10\n";

    TEXT(pif_run(NULL, 0, NULL, 0), PIF_WHOLE, 0);
    TEXT(pif_run(thread, 10, NULL, 0), PIF_WHOLE, 3);
    TEXT(pif_run(NULL, 0, room, sizeof room), PIF_WHOLE, 0);
    TEXT(pif_replay(NULL, 0, NULL, 0), PIF_FAULT, 16);
    TEXT(pif_check(NULL, 0, NULL, 0, NULL, 0), PIF_WHOLE, 6);
    TEXT(pif_judge(NULL, 0, 1, false, NULL, 0), PIF_UNDECIDED, 22);
    TEXT(pif_judge(NULL, 0, 1, false, room, sizeof room), PIF_UNDECIDED, 22);
    TEXT(pif_least(NULL, 0, 1, NULL, 0), PIF_UNDECIDED, 22);
    TEXT(pif_show(NULL, 0, false, NULL, 0), PIF_WHOLE, 0);
    TEXT(pif_show_json(NULL, 0, NULL, 0), PIF_WHOLE, 0);
    TEXT(pif_show_dot(NULL, 0, NULL, 0), PIF_WHOLE, 64);
    TEXT(pif_explore(NULL, 0, 9, false, NULL, 0), PIF_WHOLE, 31);
    TRUE(memcmp(room, "legal 0, with no call\n", 22) == 0);
}

static struct {
    char text[256];
    size_t length;
} taken;

static void take(void *to, const char *text, size_t length)
{
    TRUE(to == &taken && taken.length + length < sizeof taken.text);
    memcpy(taken.text + taken.length, text, length);
    taken.length += length;
}

static void expect_taken(int line, pif_text is, uint32_t ended, const char *text)
{
    expect_text(line, is, ended, strlen(text));
    expect_true(line, "the text", taken.length == strlen(text) && memcmp(taken.text, text, taken.length) == 0);
    taken.length = 0;
}

#define TAKEN(call, ended, text) expect_taken(__LINE__, call, ended, text)

static void counts(void *to, const char *text, size_t length)
{
    *(size_t *)to += text[length - 1] == '\n' ? length : 0;
}

/* `word m1` has 8 bytes, and prints `refused nosuch`, which has 15: so many lines are more than the first room. */
static void sinks(void)
{
    enum { LINES = 20000 };
    static char script[8 * LINES + 1];
    const uint8_t *thread = (const uint8_t *)"thread 10\n", *history = (const uint8_t *)"tick 0\n";
    size_t length = 0;

    TAKEN(pif_run_to(thread, 10, take, &taken), PIF_WHOLE, "t1\n");
    TAKEN(pif_run_to(NULL, 0, take, &taken), PIF_WHOLE, "");
    TAKEN(pif_replay_to(NULL, 0, take, &taken), PIF_FAULT, "fault 1 command\n");
    TAKEN(pif_check_to((const uint8_t *)"a", 1, thread, 10, take, &taken), PIF_WHOLE, "ok a 1\n");
    TAKEN(pif_show_to(thread, 10, NULL, take, &taken), PIF_WHOLE,
          "> thread 10\nt1\n  t1: priority 10; ready\n  run queue: t1\n\n");
    TAKEN(pif_explore_to(NULL, 0, NULL, take, &taken), PIF_WHOLE, "\n1 outcomes, 1 states, 0 steps\n");
    TAKEN(pif_judge_to(history, 7, NULL, take, &taken), PIF_UNDECIDED, "legal 1, with no call\n");
    for (int line = 0; line < LINES; line++)
        memcpy(script + 8 * line, "word m1\n", 8);
    TRUE(pif_run_to((const uint8_t *)script, 8 * LINES, counts, &length).wanted == 15 * LINES);
    TRUE(length == 15 * LINES);
}

int main(void)
{
    the_version();
    names();
    a_handle_of_malloc();
    null_pointers();
    sinks();
    return outcome();
}
