/* The jobs over texts, each as a function of a text and of room for what it writes. */
#ifndef JOBS_H
#define JOBS_H

#include <string.h>

#include "pif.h"

/* How many states `pif judge` makes for one line at most. */
enum { STATES = 200000 };

typedef pif_text job(const char *text, uint8_t *room, size_t length);

static inline const uint8_t *bytes_of(const char *text)
{
    return (const uint8_t *)text;
}

static inline pif_text runs(const char *text, uint8_t *room, size_t length)
{
    return pif_run(bytes_of(text), strlen(text), room, length);
}

static inline pif_text replays(const char *text, uint8_t *room, size_t length)
{
    return pif_replay(bytes_of(text), strlen(text), room, length);
}

static inline pif_text checks(const char *text, uint8_t *room, size_t length)
{
    return pif_check(bytes_of("mine"), 4, bytes_of(text), strlen(text), room, length);
}

static inline pif_text judges(const char *text, uint8_t *room, size_t length)
{
    return pif_judge(bytes_of(text), strlen(text), STATES, false, room, length);
}

static inline pif_text judges_in_one_state(const char *text, uint8_t *room, size_t length)
{
    return pif_judge(bytes_of(text), strlen(text), 1, false, room, length);
}

static inline pif_text judges_with_witness(const char *text, uint8_t *room, size_t length)
{
    return pif_judge(bytes_of(text), strlen(text), STATES, true, room, length);
}

static inline pif_text explores(const char *text, uint8_t *room, size_t length)
{
    return pif_explore(bytes_of(text), strlen(text), STATES, false, room, length);
}

static inline pif_text finds_least(const char *text, uint8_t *room, size_t length)
{
    return pif_least(bytes_of(text), strlen(text), STATES, room, length);
}

static inline pif_text shows_changes(const char *text, uint8_t *room, size_t length)
{
    return pif_show(bytes_of(text), strlen(text), false, room, length);
}

static inline pif_text shows_all(const char *text, uint8_t *room, size_t length)
{
    return pif_show(bytes_of(text), strlen(text), true, room, length);
}

/* The same by options. */
static inline pif_text explores_by_options(const char *text, uint8_t *room, size_t length)
{
    pif_options how = {sizeof how, 0, 0, 0, 0, 0, NULL, NULL};

    return pif_explore_with(bytes_of(text), strlen(text), &how, room, length);
}

static inline pif_text finds_least_by_options(const char *text, uint8_t *room, size_t length)
{
    pif_options how = {sizeof how, 0, 0, 0, 1, 0, NULL, NULL};

    return pif_judge_with(bytes_of(text), strlen(text), &how, room, length);
}

static inline pif_text shows_json(const char *text, uint8_t *room, size_t length)
{
    pif_options how = {sizeof how, 0, 0, 0, 0, PIF_JSON, NULL, NULL};

    return pif_show_with(bytes_of(text), strlen(text), &how, room, length);
}

static inline pif_text shows_dot(const char *text, uint8_t *room, size_t length)
{
    pif_options how = {sizeof how, 0, 0, 0, 0, PIF_DOT, NULL, NULL};

    return pif_show_with(bytes_of(text), strlen(text), &how, room, length);
}

static inline pif_text shows_all_by_options(const char *text, uint8_t *room, size_t length)
{
    pif_options how = {sizeof how, 0, 0, 0, 0, PIF_ALL, NULL, NULL};

    return pif_show_with(bytes_of(text), strlen(text), &how, room, length);
}

static inline pif_text judges_by_options(const char *text, uint8_t *room, size_t length)
{
    pif_options how = {sizeof how.size, 1, 1, 1, 1, 1, NULL, NULL};

    return pif_judge_with(bytes_of(text), strlen(text), &how, room, length);
}

#endif
