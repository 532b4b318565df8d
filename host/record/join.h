/* What makes one history of the parts of a recording. */
#ifndef PIF_RECORD_JOIN_H
#define PIF_RECORD_JOIN_H

#include "librecord/record.h"

/* The statuses of join. */
enum { WRITTEN, WRONG_WORDS, FAULT, NO_CALL, OUT_OF_MEMORY, NOWHERE = 7 };

/* join.c */
__attribute__((format(printf, 1, 2))) int refuse_by(const char *format, ...); /* says it; WRONG_WORDS */
int read_part(uint64_t number, Head **head); /* a status; what isn't as it should be is said */

/* The parts that are read, one behind another. */
typedef struct {
    Head **heads;
    uint64_t first, count; /* the number of the first, and how many */
    uint64_t cut;          /* the place behind the last that may be read */
    uint64_t last;         /* the number of the last part that the history has; those behind it say who ends later */
} Parts;

typedef enum { JOINED, NO_MEMORY, NO_BEGIN } Joined;

/* The records from the first place on at which a history may begin; `begin` is that place. If there is none `why` says
   what stood in the way at last. */
Joined join_parts(const Parts *, History *, uint64_t *begin, const char **why);

/* Of what takes longer than times of a history reach. */
Joined number_times(History *);

/* join_follow.c */
int begin_to_follow(void);        /* opens the history; a status */
bool rest_between_looks(void);    /* false: it is to end, by a signal */
bool has_gone(const char *run_name); /* its program has ended, or runs another one */
int follow_run(const char *run_name); /* writes the history to its end; a status */

#endif
