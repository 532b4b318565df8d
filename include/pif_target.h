/* A driver for an implementation of your own, in one process: it is given random calls, and each answer is compared
   with that of a core. The first that differs gives a short story, which `pif check` reads. It is C, in libpif, and not
   proved; what it compares with is the core, which is. `tools/fuzz` does the same for a program. */
#ifndef PIF_TARGET_H
#define PIF_TARGET_H

#include "pif.h"

#ifdef __cplusplus
extern "C" {
#endif

/* An implementation. Each function gets the pointer `target` that stands here. No two of its threads run at once: they
   are numbers, and each makes a call when a function below says so. */
typedef struct pif_target {
    size_t size; /* sizeof(pif_target) */
    void *target;
    /* Begins anew: no thread, no mutex and no variable is there, and the time is 0. */
    void (*reset)(void *target);
    /* Adds the thread, mutex or variable of this number. They come in order, from 1. `kind` is one of enum pif_kind.
       `add_cond` may be null if `conds` below is 0. */
    void (*add_thread)(void *target, uint32_t thread, uint32_t prio);
    void (*add_mutex)(void *target, uint32_t mutex, uint32_t kind, bool robust);
    void (*add_cond)(void *target, uint32_t cond, uint32_t mutex);
    /* A thread that has no call open makes this one: PIF_ANSWERED and its answer, or PIF_WAITS, and then it is open. */
    pif_seen (*call)(void *target, uint32_t thread, pif_request request);
    /* A thread goes on with its open call: PIF_ANSWERED and its answer, or PIF_WAITS if it has to wait on. */
    pif_seen (*finish)(void *target, uint32_t thread);
    /* A thread ends, with a call open or not. Null if threads of the target don't end. */
    void (*end)(void *target, uint32_t thread);
    /* The time is this. Null if the target has no times: then no call has a deadline. */
    void (*tick)(void *target, uint32_t time);
    /* The effective priority of a living thread, and the owner of a mutex, 0 if it is free. Asked after each call. Null
       if the target doesn't show them. */
    uint32_t (*priority)(void *target, uint32_t thread);
    uint32_t (*owner)(void *target, uint32_t mutex);
} pif_target;

/* What is tried. Zeros stand for what is usual. */
typedef struct pif_trying {
    size_t size;      /* sizeof(pif_trying) */
    uint64_t seed;    /* of the first story; the others have those after it */
    uint32_t stories; /* how many at most: 100 */
    uint32_t lines;   /* of a story: 60, and at most 100000 */
    uint32_t threads; /* 4, and at most 64 */
    uint32_t mutexes; /* 3, and at most 64 */
    uint32_t conds;   /* at most 64 */
    uint32_t robust;  /* 1: every second mutex or so is robust */
} pif_trying;

enum pif_tried {
    PIF_SAME = 0,        /* nothing differs */
    PIF_DIFFERENT = 1,   /* something does, and the sink has its story */
    PIF_TRY_INVALID = 2, /* a function that has to be there is null, or `size` is less than the header says */
    PIF_TRY_NO_MEMORY = 3
};

/* Gives random stories to a target until one differs from what the core says, and makes that one short: lines are left
   out as long as something differs then. The story goes to `sink`, a line at a time, with the core's answers. Its first
   line says what the target says in the last one. The same seed gives the same stories, as long as the target answers
   the same. Null for `how` stands for zeros, and for `sink` if no story is wanted. Answers enum pif_tried. */
PIF_NODISCARD
uint32_t pif_try_target(const pif_target *target, const pif_trying *how, pif_sink *sink, void *to);

#ifdef __cplusplus
}
#endif

#endif
