/* Plays a script on a core, a line at a time, and prints what `pif run` prints of it. Of a line that is no command it
   says so, and ends with status 2.

       play < SCRIPT */
#include <stdio.h>
#include <string.h>

#include "pif.h"

/* The number behind a letter in a word, as 7 of t7, or 0. */
static uint32_t number_in(const char *word, char letter)
{
    uint32_t number = 0;

    return word[0] == letter && sscanf(word + 1, "%u", &number) == 1 ? number : 0;
}

static uint32_t plain(const char *word)
{
    uint32_t number = 0;

    return sscanf(word, "%u", &number) == 1 ? number : 0;
}

/* The words of a line, at most seven; those that are not there are empty. */
typedef struct {
    char of[7][16];
} words;

static words split(const char *line)
{
    words found;

    memset(&found, 0, sizeof found);
    sscanf(line, "%15s %15s %15s %15s %15s %15s %15s", found.of[0], found.of[1], found.of[2], found.of[3], found.of[4],
           found.of[5], found.of[6]);
    return found;
}

/* A call by its words, from this one on. */
static pif_request request_of(const words *line, int from)
{
    const char *name = line->of[from], *first = line->of[from + 1], *second = line->of[from + 2];
    uint32_t mutex = number_in(first, 'm'), cond = number_in(first, 'c');

    if (strcmp(name, "lock") == 0)
        return pif_lock(mutex);
    if (strcmp(name, "trylock") == 0)
        return pif_trylock(mutex);
    if (strcmp(name, "unlock") == 0)
        return pif_unlock(mutex);
    if (strcmp(name, "consistent") == 0)
        return pif_consistent(mutex);
    if (strcmp(name, "timedlock") == 0)
        return pif_timedlock(mutex, plain(second));
    if (strcmp(name, "wait") == 0)
        return pif_wait(cond, number_in(second, 'm'));
    if (strcmp(name, "timedwait") == 0)
        return pif_timedwait(cond, number_in(second, 'm'), plain(line->of[from + 3]));
    if (strcmp(name, "signal") == 0)
        return pif_signal(cond);
    if (strcmp(name, "broadcast") == 0)
        return pif_broadcast(cond);
    return pif_setprio(number_in(first, 't'), plain(second));
}

static const char *refusal_text(uint32_t refusal)
{
    static const char *const texts[] = {"", "nosuch", "dead", "busy", "idle", "past"};

    return texts[refusal <= PIF_PAST ? refusal : 0];
}

static void print_seen(pif_seen seen)
{
    static const char *const texts[] = {"no core", "begun", "went", "waits", "answer", "ended", "ticked", "refused"};

    if (seen.what == PIF_ANSWERED)
        printf("answer %u\n", seen.detail);
    else if (seen.what == PIF_REFUSED)
        printf("refused %s\n", refusal_text(seen.detail));
    else
        printf("%s\n", seen.what <= PIF_REFUSED ? texts[seen.what] : "unnamed");
}

static void print_added(char letter, pif_number added)
{
    if (added.result == PIF_OK)
        printf("%c%u\n", letter, added.number);
    else if (added.result == PIF_BAD_PRIO)
        printf("refused badprio\n");
    else
        printf("refused %s\n", added.result == PIF_TOO_MANY ? "toomany" : "nosuch");
}

static uint32_t kind_of(const char *name)
{
    if (strcmp(name, "recursive") == 0)
        return PIF_RECURSIVE;
    return strcmp(name, "errorcheck") == 0 ? PIF_ERRORCHECK : PIF_NORMAL;
}

static void print_prio(pif_core *core, uint32_t thread)
{
    pif_number prio = pif_effective(core, thread);

    if (prio.result == PIF_OK)
        printf("%u\n", prio.number);
    else
        printf("%s\n", pif_status(core, thread).result == PIF_OK ? "dead" : "refused nosuch");
}

static void print_health(pif_number health)
{
    static const char *const texts[] = {"fine", "inconsistent", "unusable"};

    printf("%s\n", health.result == PIF_OK ? texts[health.number] : "refused nosuch");
}

static void print_pick(pif_number thread)
{
    if (thread.result == PIF_OK)
        printf("t%u\n", thread.number);
    else
        printf("none\n");
}

/* What is read, if the line asks for something. */
static bool looks(pif_core *core, const words *line)
{
    const char *name = line->of[0], *of = line->of[1];
    pif_number number;

    if (strcmp(name, "word") == 0) {
        number = pif_word(core, number_in(of, 'm'));
        printf(number.result == PIF_OK ? "0x%08x\n" : "refused nosuch\n", number.number);
    } else if (strcmp(name, "condword") == 0) {
        number = pif_cond_word(core, number_in(of, 'c'));
        printf(number.result == PIF_OK ? "%u\n" : "refused nosuch\n", number.number);
    } else if (strcmp(name, "health") == 0) {
        print_health(pif_health(core, number_in(of, 'm')));
    } else if (strcmp(name, "prio") == 0) {
        print_prio(core, number_in(of, 't'));
    } else if (strcmp(name, "pick") == 0) {
        print_pick(pif_pick(core));
    } else {
        return false;
    }
    return true;
}

/* What is added, or happens, if the line says so. */
static bool changes(pif_core *core, const words *line)
{
    const char *name = line->of[0], *of = line->of[1];
    uint32_t thread = number_in(of, 't');

    if (strcmp(name, "thread") == 0)
        print_added('t', pif_add_thread(core, plain(of)));
    else if (strcmp(name, "mutex") == 0)
        print_added('m', pif_add_mutex(core, kind_of(of), strcmp(line->of[2], "robust") == 0));
    else if (strcmp(name, "cond") == 0)
        print_added('c', pif_add_cond(core, number_in(of, 'm')));
    else if (strcmp(name, "begin") == 0)
        print_seen(pif_begin(core, thread, request_of(line, 2)));
    else if (strcmp(name, "call") == 0)
        print_seen(pif_call(core, thread, request_of(line, 2)));
    else if (strcmp(name, "go") == 0)
        print_seen(pif_go(core, thread));
    else if (strcmp(name, "finish") == 0)
        print_seen(pif_finish(core, thread));
    else if (strcmp(name, "end") == 0)
        print_seen(pif_end(core, thread));
    else if (strcmp(name, "tick") == 0)
        print_seen(pif_tick(core, plain(of)));
    else
        return false;
    return true;
}

/* Makes a core by the first line: with its limits, or those of a script that names none. */
static bool opens(pif_core *core, const words *line)
{
    if (strcmp(line->of[0], "limits") != 0) {
        pif_core_new(core, 1024, 1024, 256, UINT32_MAX);
        return false;
    }
    pif_core_new(core, plain(line->of[1]), plain(line->of[2]), plain(line->of[3]), plain(line->of[4]));
    printf("ok\n");
    return true;
}

int main(void)
{
    pif_core core = {0};
    char line[256];
    int status = 0;

    for (bool first = true; status == 0 && fgets(line, sizeof line, stdin) != NULL; first = false) {
        words said = split(line);
        if (first && opens(&core, &said))
            continue;
        if (!changes(&core, &said) && !looks(&core, &said)) {
            printf("no command: %s", line);
            status = 2;
        }
    }
    pif_core_free(&core);
    return status;
}
