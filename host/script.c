/* Reads scripts and stories into commands. */
#include "script.h"

#include <stdlib.h>
#include <string.h>

typedef struct {
    char bytes[LONGEST_COMMAND + 1];
    char *words[MOST_WORDS];
    size_t count;
} Words;

static bool is_number(const char *word, uint32_t *number)
{
    uint64_t value = 0;

    if (*word == '\0' || (word[0] == '0' && word[1] != '\0'))
        return false;
    for (; *word != '\0'; word++) {
        if (*word < '0' || *word > '9')
            return false;
        value = value * 10 + (uint64_t)(*word - '0');
        if (value > UINT32_MAX)
            return false;
    }
    *number = (uint32_t)value;
    return true;
}

static bool is_name(const char *word, char letter, uint32_t *number)
{
    return word[0] == letter && is_number(word + 1, number) && *number > 0;
}

/* Cuts a command at its single spaces. */
static bool split(const char *text, size_t length, Words *words)
{
    char *next = words->bytes;

    memcpy(words->bytes, text, length);
    words->bytes[length] = '\0';
    words->count = 0;
    if (length == 0 || memchr(text, '\0', length) != NULL)
        return false;
    while (next != NULL) {
        char *word = next;

        next = strchr(word, ' ');
        if (next != NULL)
            *next++ = '\0';
        if (*word == '\0' || words->count == MOST_WORDS)
            return false;
        words->words[words->count++] = word;
    }
    return true;
}

static bool read_kind(const Words *words, Command *command)
{
    static const struct {
        const char *word;
        Kind kind;
    } kinds[] = {
        {"normal", NORMAL}, {"default", NORMAL}, {"errorcheck", ERRORCHECK}, {"recursive", RECURSIVE}};

    command->robust = words->count == 3;
    if (words->count > 3 || words->count < 2 || (command->robust && strcmp(words->words[2], "robust") != 0))
        return false;
    for (size_t i = 0; i < sizeof kinds / sizeof *kinds; i++)
        if (strcmp(words->words[1], kinds[i].word) == 0) {
            command->kind = kinds[i].kind;
            return true;
        }
    return false;
}

/* One word of a request, by the letter that stands for it below. */
static bool read_part(char part, const char *word, Request *request)
{
    switch (part) {
    case 'm': return is_name(word, 'm', &request->mutex);
    case 'c': return is_name(word, 'c', &request->cond);
    case 't': return is_name(word, 't', &request->thread);
    default: return is_number(word, &request->number);
    }
}

static bool read_request(char *const *words, size_t count, Request *request)
{
    static const struct {
        const char *word, *parts;
        Wish wish;
    } wishes[] = {{"lock", "m", LOCK}, {"trylock", "m", TRYLOCK}, {"unlock", "m", UNLOCK},
        {"consistent", "m", CONSISTENT}, {"wait", "cm", WAIT}, {"signal", "c", SIGNAL},
        {"broadcast", "c", BROADCAST}, {"setprio", "tn", SETPRIO}, {"timedlock", "mn", TIMEDLOCK},
        {"timedwait", "cmn", TIMEDWAIT}};

    for (size_t i = 0; count > 0 && i < sizeof wishes / sizeof *wishes; i++) {
        const char *parts = wishes[i].parts;

        if (strcmp(words[0], wishes[i].word) != 0 || strlen(parts) != count - 1)
            continue;
        request->wish = wishes[i].wish;
        for (size_t j = 0; parts[j] != '\0'; j++)
            if (!read_part(parts[j], words[j + 1], request))
                return false;
        return true;
    }
    return false;
}

static bool read_limits(const Words *words, Command *command)
{
    for (size_t i = 0; i < 4; i++)
        if (words->count != 5 || !is_number(words->words[i + 1], &command->numbers[i]))
            return false;
    return true;
}

/* What stands behind the first word: a name by its letter, a number, a kind, limits, a request or nothing. */
static bool read_rest(char rest, const Words *words, Command *command)
{
    switch (rest) {
    case 'k': return read_kind(words, command);
    case 'l': return read_limits(words, command);
    case 'n': return words->count == 2 && is_number(words->words[1], &command->numbers[0]);
    case 'q':
        return words->count > 2 && is_name(words->words[1], 't', &command->name) &&
               read_request(&words->words[2], words->count - 2, &command->request);
    case '-': return words->count == 1;
    default: return words->count == 2 && is_name(words->words[1], rest, &command->name);
    }
}

static bool read_command(const Words *words, Command *command)
{
    static const struct {
        const char *word;
        char rest;
        Verb verb;
    } verbs[] = {{"limits", 'l', LIMITS}, {"thread", 'n', THREAD}, {"mutex", 'k', MUTEX}, {"cond", 'm', COND},
        {"begin", 'q', BEGIN}, {"go", 't', GO}, {"end", 't', END}, {"tick", 'n', TICK}, {"call", 'q', CALL},
        {"finish", 't', FINISH}, {"word", 'm', WORD}, {"health", 'm', HEALTH}, {"condword", 'c', CONDWORD},
        {"prio", 't', PRIO}, {"pick", '-', PICK}};

    for (size_t i = 0; i < sizeof verbs / sizeof *verbs; i++)
        if (strcmp(words->words[0], verbs[i].word) == 0) {
            command->verb = verbs[i].verb;
            return read_rest(verbs[i].rest, words, command);
        }
    return false;
}

static const char *limits_fault(const Command *command, size_t before)
{
    const uint32_t *numbers = command->numbers;

    if (command->verb != LIMITS)
        return NULL;
    if (before > 0)
        return "command";
    return numbers[0] == 0 || numbers[0] > MOST_THREADS || numbers[1] > MOST_MUTEXES || numbers[2] > MOST_CONDS ||
                   numbers[3] == 0
               ? "limits"
               : NULL;
}

/* Copies the words of a line with one space between them, without a comment and a CR at the line's end. The copy has
   room for the line; the answer is its length. */
static size_t copy_words(const char *line, size_t length, char *copy)
{
    size_t count = 0;
    bool gap = false;

    if (length > 0 && line[length - 1] == '\r')
        length--;
    for (size_t i = 0; i < length && line[i] != '#'; i++) {
        if (line[i] == ' ' || line[i] == '\t') {
            gap = count > 0;
            continue;
        }
        if (gap)
            copy[count++] = ' ';
        gap = false;
        copy[count++] = line[i];
    }
    return count;
}

/* The command of a line: if it has an answer what stands before the first ` = `. */
static size_t command_length(const char *line, size_t length)
{
    for (size_t cut = 0; cut + 3 <= length; cut++) {
        if (memcmp(line + cut, " = ", 3) == 0)
            return cut;
    }
    return length;
}

/* Adds the command of a line to the script; the answer is the cause of a fault, or NULL. The copy has room for the
   line. */
static const char *add_line(const char *line, size_t length, char *copy, Script *script)
{
    Command *command = &script->commands[script->count];
    Words words;

    length = copy_words(line, length, copy);
    if (length == 0)
        return NULL;
    length = command_length(copy, length);
    if (length > LONGEST_COMMAND)
        return "long";
    if (!split(copy, length, &words) || !read_command(&words, command))
        return "command";
    const char *fault = limits_fault(command, script->count);
    if (fault == NULL)
        script->count++;
    return fault;
}

static size_t count_lines(const char *text, size_t length)
{
    size_t lines = 1;

    for (size_t i = 0; i < length; i++)
        lines += text[i] == '\n';
    return lines;
}

bool read_script(const char *text, size_t length, Script *script)
{
    size_t start = length >= 3 && memcmp(text, "\xef\xbb\xbf", 3) == 0 ? 3 : 0;
    char *copy = malloc(length + 1);

    *script = (Script){.commands = calloc(count_lines(text, length), sizeof(Command))};
    if (script->commands == NULL || copy == NULL) {
        free(copy);
        return false;
    }
    for (size_t line = 1; start < length && script->fault == NULL; line++) {
        const char *end = memchr(text + start, '\n', length - start);
        size_t bytes = end == NULL ? length - start : (size_t)(end - (text + start));

        script->commands[script->count].line = line;
        script->fault = add_line(text + start, bytes, copy, script);
        if (script->fault != NULL)
            script->fault_line = line;
        start += bytes + 1;
    }
    free(copy);
    return true;
}
