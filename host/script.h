/* Scripts and stories: their commands, as docs/FORMATS.md has them. */
#ifndef PIF_SCRIPT_H
#define PIF_SCRIPT_H

#include <stdbool.h>
#include <stddef.h>
#include <stdint.h>

enum {
    MOST_BYTES = 16777216, /* of an input */
    LONGEST_COMMAND = 120,
    MOST_WORDS = 6,
    MOST_THREADS = 1024,
    MOST_MUTEXES = 1024,
    MOST_CONDS = 256,
};

typedef enum { NORMAL, ERRORCHECK, RECURSIVE } Kind;

typedef enum {
    LOCK, TRYLOCK, UNLOCK, CONSISTENT, WAIT, SIGNAL, BROADCAST, SETPRIO, TIMEDLOCK, TIMEDWAIT
} Wish;

/* What a thread asks for: the Q of `call tN Q`. Names are numbers from 1; 0 is no name. */
typedef struct {
    Wish wish;
    uint32_t mutex, cond, thread;
    uint32_t number; /* a priority, or a deadline */
} Request;

typedef enum {
    LIMITS, THREAD, MUTEX, COND, BEGIN, GO, END, TICK, CALL, FINISH, WORD, HEALTH, CONDWORD, PRIO, PICK
} Verb;

typedef struct {
    Verb verb;
    size_t line;         /* of the input, from 1 */
    uint32_t name;       /* the thread, mutex or variable that the command names */
    uint32_t numbers[4]; /* of `limits`; the first one also of `thread` and `tick` */
    Kind kind;
    bool robust;
    Request request;
} Command;

typedef struct {
    Command *commands;
    size_t count;
    size_t fault_line; /* 0: no fault */
    const char *fault; /* its cause, as docs/FORMATS.md names it */
} Script;

/* Reads all commands up to the first fault. The answer is false if there is no memory. */
bool read_script(const char *text, size_t length, Script *script);

#endif
