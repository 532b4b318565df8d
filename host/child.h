/* A run of a script in a process of its own. */
#ifndef PIF_CHILD_H
#define PIF_CHILD_H

#include "host.h"

typedef struct {
    char *text; /* what the process printed */
    size_t length, room;
    char last_words[512]; /* what it said of an error, such as a failed assertion */
    int status;           /* STATUS_DONE and the others; also after an abort or at the time limit */
    const char *stopped;  /* NULL, or what stands for the answer of the command that didn't end */
} Result;

typedef struct {
    Way way;
    unsigned seconds; /* after which the process is ended */
    unsigned most;    /* threads, and mutexes, if the script names no limits */
    unsigned pace_ms; /* for each command, where deadlines are planned */
    bool late;        /* who was woken doesn't run before who makes the next step, unless its priority is greater */
} Choice;

/* Runs the script; the answer is a status, and is STATUS_DONE if there was such a process. */
int run_in_child(const Choice *choice, const Script *script, Result *result);

#endif
