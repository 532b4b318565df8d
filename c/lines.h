/* Lines of stories and traces, as docs/FORMATS.md has them, for the driver and the log. */
#ifndef PIF_LINES_H
#define PIF_LINES_H

#include "pif.h"

/* Who takes lines, and the line that is being made: the longest has less than 100 bytes. */
struct teller {
    pif_sink *sink;
    void *to;
    char text[128];
    size_t length;
};

/* These put something behind what the line has: a word. */
void put(struct teller *teller, const char *word);
/* A word, and a number behind it. */
void put_number(struct teller *teller, const char *word, uint32_t number);
/* The command that adds a mutex of a kind that there is. */
void put_mutex(struct teller *teller, uint32_t kind, bool robust);
/* A call that there is, as it stands behind the thread that makes it. */
void put_call(struct teller *teller, const pif_request *request);
/* What became of an event. */
void put_seen(struct teller *teller, pif_seen seen);

/* Hands the line on, and begins the next. */
void end_line(struct teller *teller);

#endif
