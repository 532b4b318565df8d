/* Jobs over texts by options, watched so that they can be stopped, and for a sink: C over the functions of pif.h that
   write to a room. None of it is proved. */
#define _POSIX_C_SOURCE 200809L
#include <stdlib.h>
#include <string.h>
#include <time.h>

#include "pif.h"

/* OPTIONS */

/* What is asked for, with zeros for what a caller of an earlier version doesn't have. */
static pif_options wanted(const pif_options *how)
{
    pif_options all = {0};

    if (how != NULL)
        memcpy(&all, how, how->size < sizeof all ? how->size : sizeof all);
    return all;
}

/* STOPPING */

/* Who watches the jobs of this thread: whenever one asks for memory, it may be told to stop. Then that request and all
   that follow are refused, as if memory had run out, and what is proved of the job holds. */
struct watch {
    const pif_options *how;
    struct timespec begun;
    uint32_t requests;
    bool is_stopped;
};

static __thread struct watch *watching;

/* In the library the exports call these in place of malloc and realloc (the Makefile). */
void *watched_malloc(size_t size);
void *watched_realloc(void *block, size_t size);

static bool is_over(const struct watch *watch)
{
    struct timespec now;

    if (watch->how->seconds == 0 || clock_gettime(CLOCK_MONOTONIC, &now) != 0)
        return false;
    time_t seconds = now.tv_sec - watch->begun.tv_sec - (now.tv_nsec < watch->begun.tv_nsec);
    return seconds >= (time_t)watch->how->seconds;
}

/* Whether a request for memory is refused. The first asks whether the job goes on, and each 64th behind it. */
static bool is_refused(void)
{
    struct watch *watch = watching;

    if (watch == NULL || watch->is_stopped)
        return watch != NULL;
    if (watch->requests++ % 64 != 0)
        return false;
    const pif_options *how = watch->how;
    watching = NULL;
    watch->is_stopped = is_over(watch) || (how->goes_on != NULL && !how->goes_on(how->to));
    watching = watch;
    return watch->is_stopped;
}

void *watched_malloc(size_t size)
{
    return is_refused() ? NULL : malloc(size);
}

void *watched_realloc(void *block, size_t size)
{
    return is_refused() ? NULL : realloc(block, size);
}

/* JOBS */

/* A job over texts, as a sink wants it. */
struct job {
    pif_text (*ask)(const struct job *job, uint8_t *room, size_t length);
    const uint8_t *text, *name;
    size_t text_length, name_length;
    pif_options how;
};

static struct watch watch_of(const struct job *job)
{
    struct watch watch = {&job->how, {0, 0}, 0, false};

    if (job->how.seconds != 0)
        clock_gettime(CLOCK_MONOTONIC, &watch.begun);
    return watch;
}

/* What a job writes while it is watched. */
static pif_text ask(const struct job *job, struct watch *watch, uint8_t *room, size_t length)
{
    struct watch *outer = watching;

    watching = watch;
    pif_text told = job->ask(job, room, length);
    watching = outer;
    if (watch->is_stopped && (told.ended == PIF_OUT_OF_MEMORY || told.ended == PIF_UNWRITTEN)) {
        told.ended = PIF_INTERRUPTED;
        told.wanted = 0;
    }
    return told;
}

/* Does a job, and writes to the room. */
static pif_text write_out(const struct job *job, uint8_t *room, size_t length)
{
    struct watch watch = watch_of(job);

    return ask(job, &watch, room, length);
}

/* Hands on what a job writes. It runs once if that is as long as what it reads, or at most 4 KiB longer; else twice. */
static pif_text hand_on(const struct job *job, pif_sink *sink, void *to)
{
    struct watch watch = watch_of(job);
    size_t length = job->text_length + 4096;
    pif_text told = {PIF_UNWRITTEN, 0};
    bool fits = false;

    while (!fits) {
        uint8_t *room = malloc(length);
        if (room == NULL) {
            told.ended = PIF_UNWRITTEN;
            return told;
        }
        told = ask(job, &watch, room, length);
        fits = told.wanted <= length;
        if (fits && told.wanted > 0)
            sink(to, (const char *)room, told.wanted);
        free(room);
        length = told.wanted;
    }
    return told;
}

static pif_text ask_run(const struct job *job, uint8_t *room, size_t length)
{
    return pif_run(job->text, job->text_length, room, length);
}

static pif_text ask_replay(const struct job *job, uint8_t *room, size_t length)
{
    return pif_replay(job->text, job->text_length, room, length);
}

static pif_text ask_check(const struct job *job, uint8_t *room, size_t length)
{
    return pif_check(job->name, job->name_length, job->text, job->text_length, room, length);
}

static pif_text ask_show(const struct job *job, uint8_t *room, size_t length)
{
    switch (job->how.shown) {
    case PIF_JSON: return pif_show_json(job->text, job->text_length, room, length);
    case PIF_DOT: return pif_show_dot(job->text, job->text_length, room, length);
    default: return pif_show(job->text, job->text_length, job->how.shown == PIF_ALL, room, length);
    }
}

static pif_text ask_judge(const struct job *job, uint8_t *room, size_t length)
{
    uint32_t states = job->how.states == 0 ? PIF_JUDGE_STATES : job->how.states;

    if (job->how.least != 0)
        return pif_least(job->text, job->text_length, states, room, length);
    return pif_judge(job->text, job->text_length, states, job->how.witness != 0, room, length);
}

static pif_text ask_explore(const struct job *job, uint8_t *room, size_t length)
{
    uint32_t states = job->how.states == 0 ? PIF_EXPLORE_STATES : job->how.states;

    return pif_explore(job->text, job->text_length, states, job->how.witness != 0, room, length);
}

pif_text pif_judge_with(const uint8_t *history, size_t history_length, const pif_options *how, uint8_t *room,
                        size_t room_length)
{
    const struct job job = {ask_judge, history, NULL, history_length, 0, wanted(how)};

    return write_out(&job, room, room_length);
}

pif_text pif_explore_with(const uint8_t *program, size_t program_length, const pif_options *how, uint8_t *room,
                          size_t room_length)
{
    const struct job job = {ask_explore, program, NULL, program_length, 0, wanted(how)};

    return write_out(&job, room, room_length);
}

pif_text pif_show_with(const uint8_t *story, size_t story_length, const pif_options *how, uint8_t *room,
                       size_t room_length)
{
    const struct job job = {ask_show, story, NULL, story_length, 0, wanted(how)};

    return write_out(&job, room, room_length);
}

pif_text pif_run_to(const uint8_t *script, size_t script_length, pif_sink *sink, void *to)
{
    const struct job job = {ask_run, script, NULL, script_length, 0, wanted(NULL)};

    return hand_on(&job, sink, to);
}

pif_text pif_replay_to(const uint8_t *trace, size_t trace_length, pif_sink *sink, void *to)
{
    const struct job job = {ask_replay, trace, NULL, trace_length, 0, wanted(NULL)};

    return hand_on(&job, sink, to);
}

pif_text pif_check_to(const uint8_t *name, size_t name_length, const uint8_t *story, size_t story_length,
                      pif_sink *sink, void *to)
{
    const struct job job = {ask_check, story, name, story_length, name_length, wanted(NULL)};

    return hand_on(&job, sink, to);
}

pif_text pif_show_to(const uint8_t *story, size_t story_length, const pif_options *how, pif_sink *sink, void *to)
{
    const struct job job = {ask_show, story, NULL, story_length, 0, wanted(how)};

    return hand_on(&job, sink, to);
}

pif_text pif_judge_to(const uint8_t *history, size_t history_length, const pif_options *how, pif_sink *sink, void *to)
{
    const struct job job = {ask_judge, history, NULL, history_length, 0, wanted(how)};

    return hand_on(&job, sink, to);
}

pif_text pif_explore_to(const uint8_t *program, size_t program_length, const pif_options *how, pif_sink *sink, void *to)
{
    const struct job job = {ask_explore, program, NULL, program_length, 0, wanted(how)};

    return hand_on(&job, sink, to);
}
