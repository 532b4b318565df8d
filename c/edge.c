/* What stands in C before the exports of crates/pif_c: the version, handles of malloc, and texts at null pointers.
   None of it is proved. In the library the exports behind functions of the same name have `proved_` before their names
   (the Makefile). */
#include <stdlib.h>
#include <string.h>

#include "pif.h"

uint32_t pif_version(void)
{
    return PIF_VERSION_NUMBER;
}

static uint32_t opened(pif_core *core, uint32_t threads, uint32_t mutexes, uint32_t conds, uint32_t signals)
{
    const pif_core none = {0};

    if (core == NULL)
        return PIF_NO_MEMORY;
    *core = none;
    return pif_core_new(core, threads, mutexes, conds, signals);
}

pif_core *pif_core_open(uint32_t threads, uint32_t mutexes, uint32_t conds, uint32_t signals, uint32_t *result)
{
    pif_core *core = malloc(sizeof *core);
    uint32_t is = opened(core, threads, mutexes, conds, signals);

    if (result != NULL)
        *result = is;
    if (is == PIF_OK)
        return core;
    free(core);
    return NULL;
}

void pif_core_close(pif_core *core)
{
    if (core == NULL)
        return;
    pif_core_free(core);
    free(core);
}

/* The exports look for what is in an array at a place that is there, also if the array is empty. Nothing is read or
   written here then. */
static uint8_t nothing[1];
static const pif_candidate no_candidate;
static const pif_counts no_counts;
static const pif_point no_point;
static const pif_standing no_standing;
static pif_link no_link;

static const uint8_t *text_at(const uint8_t *text, size_t length)
{
    return length == 0 ? nothing : text;
}

static uint8_t *room_at(uint8_t *room, size_t length)
{
    return length == 0 ? nothing : room;
}

pif_number proved_pif_choose_staying(uint32_t, const pif_candidate *, size_t);
pif_number proved_pif_choose_drawn(uint32_t, const pif_candidate *, size_t);
pif_number proved_pif_choose_ranked(const pif_candidate *, size_t);
pif_change proved_pif_choose_next(const pif_counts *, const pif_point *, size_t, const pif_counts *, size_t);
uint32_t proved_pif_choose_is_deadlock(const pif_standing *, size_t);
size_t proved_pif_choose_chain(const pif_standing *, size_t, uint32_t, pif_link *, size_t);
uint32_t proved_pif_machine_allow(pif_machine *, const uint8_t *, size_t);
pif_text proved_pif_run(const uint8_t *, size_t, uint8_t *, size_t);
pif_text proved_pif_replay(const uint8_t *, size_t, uint8_t *, size_t);
pif_text proved_pif_check(const uint8_t *, size_t, const uint8_t *, size_t, uint8_t *, size_t);
pif_text proved_pif_judge(const uint8_t *, size_t, uint32_t, bool, uint8_t *, size_t);
pif_text proved_pif_least(const uint8_t *, size_t, uint32_t, uint8_t *, size_t);
pif_text proved_pif_explore(const uint8_t *, size_t, uint32_t, bool, uint8_t *, size_t);
pif_text proved_pif_show(const uint8_t *, size_t, bool, uint8_t *, size_t);
pif_text proved_pif_show_json(const uint8_t *, size_t, uint8_t *, size_t);
pif_text proved_pif_show_dot(const uint8_t *, size_t, uint8_t *, size_t);

pif_text pif_run(const uint8_t *script, size_t script_length, uint8_t *room, size_t room_length)
{
    return proved_pif_run(text_at(script, script_length), script_length, room_at(room, room_length), room_length);
}

pif_text pif_replay(const uint8_t *trace, size_t trace_length, uint8_t *room, size_t room_length)
{
    return proved_pif_replay(text_at(trace, trace_length), trace_length, room_at(room, room_length), room_length);
}

pif_text pif_check(const uint8_t *name, size_t name_length, const uint8_t *story, size_t story_length, uint8_t *room,
                   size_t room_length)
{
    return proved_pif_check(text_at(name, name_length), name_length, text_at(story, story_length), story_length,
                            room_at(room, room_length), room_length);
}

pif_text pif_judge(const uint8_t *history, size_t history_length, uint32_t states, bool witness, uint8_t *room,
                   size_t room_length)
{
    return proved_pif_judge(text_at(history, history_length), history_length, states, witness,
                            room_at(room, room_length), room_length);
}

pif_text pif_least(const uint8_t *history, size_t history_length, uint32_t states, uint8_t *room, size_t room_length)
{
    return proved_pif_least(text_at(history, history_length), history_length, states, room_at(room, room_length),
                            room_length);
}

pif_text pif_explore(const uint8_t *program, size_t program_length, uint32_t states, bool witness, uint8_t *room,
                     size_t room_length)
{
    return proved_pif_explore(text_at(program, program_length), program_length, states, witness,
                              room_at(room, room_length), room_length);
}

pif_text pif_show(const uint8_t *story, size_t story_length, bool all, uint8_t *room, size_t room_length)
{
    return proved_pif_show(text_at(story, story_length), story_length, all, room_at(room, room_length), room_length);
}

pif_text pif_show_json(const uint8_t *story, size_t story_length, uint8_t *room, size_t room_length)
{
    return proved_pif_show_json(text_at(story, story_length), story_length, room_at(room, room_length), room_length);
}

pif_text pif_show_dot(const uint8_t *story, size_t story_length, uint8_t *room, size_t room_length)
{
    return proved_pif_show_dot(text_at(story, story_length), story_length, room_at(room, room_length), room_length);
}

pif_number pif_choose_staying(uint32_t present, const pif_candidate *can, size_t can_length)
{
    return proved_pif_choose_staying(present, can_length == 0 ? &no_candidate : can, can_length);
}

pif_number pif_choose_drawn(uint32_t number, const pif_candidate *can, size_t can_length)
{
    return proved_pif_choose_drawn(number, can_length == 0 ? &no_candidate : can, can_length);
}

pif_number pif_choose_ranked(const pif_candidate *can, size_t can_length)
{
    return proved_pif_choose_ranked(can_length == 0 ? &no_candidate : can, can_length);
}

pif_change pif_choose_next(const pif_counts *bound, const pif_point *points, size_t points_length,
                           const pif_counts *options, size_t options_length)
{
    return proved_pif_choose_next(bound, points_length == 0 ? &no_point : points, points_length,
                                  options_length == 0 ? &no_counts : options, options_length);
}

uint32_t pif_choose_is_deadlock(const pif_standing *standings, size_t standings_length)
{
    return proved_pif_choose_is_deadlock(standings_length == 0 ? &no_standing : standings, standings_length);
}

size_t pif_choose_chain(const pif_standing *standings, size_t standings_length, uint32_t first, pif_link *room,
                        size_t room_length)
{
    return proved_pif_choose_chain(standings_length == 0 ? &no_standing : standings, standings_length, first,
                                   room_length == 0 ? &no_link : room, room_length);
}

uint32_t pif_machine_allow(pif_machine *machine, const uint8_t *word, size_t word_length)
{
    return proved_pif_machine_allow(machine, text_at(word, word_length), word_length);
}

/* Each of these words names rules. */
static uint32_t allow_all(pif_machine *machine, const char *rules)
{
    uint32_t is = PIF_OK;

    for (const char *word = rules; is == PIF_OK && *word != '\0';) {
        size_t length = strcspn(word, " ");
        if (length > 0)
            is = pif_machine_allow(machine, (const uint8_t *)word, length);
        word += length + (word[length] == ' ');
    }
    return is;
}

static uint32_t machine_opened(pif_machine *machine, uint32_t threads, uint32_t mutexes, uint32_t conds,
                               uint32_t signals, const char *rules)
{
    const pif_machine none = {0};

    if (machine == NULL)
        return PIF_NO_MEMORY;
    *machine = none;
    uint32_t is = pif_machine_new(machine, threads, mutexes, conds, signals);
    return is == PIF_OK ? allow_all(machine, rules) : is;
}

pif_machine *pif_machine_open(uint32_t threads, uint32_t mutexes, uint32_t conds, uint32_t signals, const char *rules,
                              uint32_t *result)
{
    pif_machine *machine = malloc(sizeof *machine);
    uint32_t is = machine_opened(machine, threads, mutexes, conds, signals, rules);

    if (result != NULL)
        *result = is;
    if (is == PIF_OK)
        return machine;
    pif_machine_close(machine);
    return NULL;
}

void pif_machine_close(pif_machine *machine)
{
    if (machine == NULL)
        return;
    pif_machine_free(machine);
    free(machine);
}
