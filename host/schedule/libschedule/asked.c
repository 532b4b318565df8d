/* What the tool asks of a run: options, a name and a number in each line, rules that are choices, too, and the choices of
   a schedule. */
#define _GNU_SOURCE
#include <fcntl.h>
#include <stdlib.h>
#include <string.h>
#include <sys/mman.h>
#include <sys/stat.h>
#include <unistd.h>

#include "schedule.h"

enum { BASE = 10, MOST_RULES = 32 };

static const struct {
    const char *name;
    uint64_t *is;
} names[] = {
    {"strategy", &options.strategy}, {"seed", &options.seed},     {"depth", &options.depth},
    {"length", &options.length},     {"ends", &options.ends},     {"time", &options.time},
    {"steps", &options.steps},       {"inherit", &options.inherit}, {"errors", &options.errors},
    {"each", &options.each},         {"loose", &options.loose},   {"whole", &options.whole},
    {"story", &options.story},       {"memory", &options.memory}, {"races", &options.races},
    {"posix", &options.posix},       {"spurious", &options.spurious},
};

static const char *rules[MOST_RULES + 1];
static size_t rule_count;

static Choice *choices;
static size_t choice_count, next_choice;

static bool set_option(const char *line)
{
    for (size_t i = 0; i < sizeof names / sizeof *names; i++) {
        size_t length = strlen(names[i].name);
        if (strncmp(line, names[i].name, length) == 0 && line[length] == ' ') {
            *names[i].is = strtoull(line + length, NULL, BASE);
            return true;
        }
    }
    return false;
}

/* `allow steal` */
static bool set_rule(const char *line)
{
    if (strncmp(line, "allow ", 6) != 0 || rule_count == MOST_RULES)
        return false;
    rules[rule_count++] = line + 6;
    return true;
}

const char *allowed_rule(size_t place) { return rules[place]; }

static bool read_number(const char **text, const char *before, uint32_t *number)
{
    size_t length = strlen(before);
    char *behind;

    if (strncmp(*text, before, length) != 0)
        return false;
    *number = (uint32_t)strtoul(*text + length, &behind, BASE);
    *text = behind;
    return true;
}

static bool read_choice(const char *line, Choice *choice)
{
    uint32_t point;
    const char *at = line;

    choice->line = line;
    if (!read_number(&at, "", &point) || !read_number(&at, " t", &choice->chooser)
        || !read_number(&at, ".", &choice->count))
        return false;
    if (read_number(&at, " > t", &choice->thread))
        choice->kind = CHOOSE_THREAD;
    else if (read_number(&at, " end t", &choice->thread))
        choice->kind = CHOOSE_END;
    else if (read_number(&at, " wake t", &choice->thread))
        choice->kind = CHOOSE_WAKE;
    else if (strncmp(at, " time ", 6) == 0)
        choice->kind = CHOOSE_TIME;
    else if (strncmp(at, " by ", 4) == 0) {
        choice->kind = CHOOSE_WAY;
        choice->way = at + 4;
    } else
        return false;
    return choice->thread <= MOST_THREADS;
}

/* The text of a file with a 0 behind it; NULL if it can't be read. */
static char *text_of(const char *file, size_t *size)
{
    struct stat present;
    int opened = open(file, O_RDONLY | O_CLOEXEC);

    if (opened < 0)
        return NULL;
    char *text = fstat(opened, &present) != 0 ? NULL : map_memory((size_t)present.st_size + 1);
    *size = text == NULL ? 0 : (size_t)present.st_size;
    if (text != NULL && read(opened, text, *size) != (ssize_t)*size)
        text = NULL;
    close(opened);
    return text;
}

static size_t lines_of(const char *text)
{
    size_t count = 0;

    for (const char *at = text; (at = strchr(at, '\n')) != NULL; at++)
        count++;
    return count;
}

bool read_asked(const char *file)
{
    size_t size;
    char *text = text_of(file, &size), *end;

    if (text == NULL)
        return false;
    choices = map_memory((lines_of(text) + 1) * sizeof *choices);
    for (char *line = text; choices != NULL && (end = strchr(line, '\n')) != NULL; line = end + 1) {
        *end = '\0';
        if (set_option(line) || set_rule(line))
            continue;
        if (!read_choice(line, &choices[choice_count++]))
            return false;
    }
    return choices != NULL && options.strategy < STRATEGIES;
}

/* By the thread and its own count: the first choice of them that wasn't used. */
static Choice *loose_choice(Kind kind, const Thread *chooser)
{
    for (size_t i = 0; i < choice_count; i++) {
        Choice *choice = &choices[i];
        if (choice->chooser == chooser->number && choice->count == chooser->count && choice->kind == kind
            && !choice->is_used)
            return choice;
    }
    return NULL;
}

/* Whether a choice is asked at this point. A line begins with the point's number. */
static bool is_here(const char *asked, const char *line)
{
    size_t length = strcspn(line, " ");

    return strncmp(asked, line, length + 1) == 0;
}

/* What the schedule chooses here, if it has a choice of this kind. The line is what is known of this point. */
const Choice *asked_choice(Kind kind, const char *line, const Thread *chooser)
{
    Choice *choice = NULL;

    if (options.loose)
        choice = loose_choice(kind, chooser);
    else if (next_choice < choice_count && is_here(choices[next_choice].line, line)
             && choices[next_choice].kind == kind)
        choice = &choices[next_choice++];
    if (choice != NULL)
        choice->is_used = true;
    return choice;
}

/* The next choice that has to come; NULL if there is none. */
const char *next_line(void) { return options.loose || next_choice == choice_count ? NULL : choices[next_choice].line; }
