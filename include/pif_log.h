/* A core with a log: what is asked of it and what it answers goes to a function of yours as a trace, a line at a time,
   as docs/FORMATS.md has traces. `pif replay` and pif_replay hold another core to it. It is C over the functions of
   pif.h, in libpif, and not proved. */
#ifndef PIF_LOG_H
#define PIF_LOG_H

#include "pif.h"

#ifdef __cplusplus
extern "C" {
#endif

/* A log of a core: pif_core_log fills it. The readers of pif.h may ask the core. What other functions of pif.h change
   in it is missing from the trace, which is wrong then. */
typedef struct pif_log {
    pif_core *core;
    pif_sink *sink;
    void *to;
} pif_log;

/* Has an empty handle hold a new core, as pif_core_new, and `log` log it: the sink gets the first two lines of the
   trace. The handle and the log have to stay where they are. Answers as pif_core_new, and PIF_INVALID for a null sink;
   if that isn't PIF_OK nothing is logged. */
PIF_NODISCARD
uint32_t pif_core_log(pif_log *log, pif_core *core, uint32_t threads, uint32_t mutexes, uint32_t conds,
                      uint32_t signals, pif_sink *sink, void *to);

/* As pif_add_thread, pif_add_mutex and pif_add_cond. What is added has a line; an addition that is refused has none. */
pif_number pif_log_add_thread(const pif_log *log, uint32_t prio);
pif_number pif_log_add_mutex(const pif_log *log, uint32_t kind, bool robust);
pif_number pif_log_add_cond(const pif_log *log, uint32_t mutex);

/* As pif_begin, pif_go, pif_end and pif_tick. Each has a line, also one that is refused, but for PIF_NOTHING and
   PIF_UNNAMED. */
pif_seen pif_log_begin(const pif_log *log, uint32_t thread, pif_request request);
pif_seen pif_log_go(const pif_log *log, uint32_t thread);
pif_seen pif_log_end(const pif_log *log, uint32_t thread);
pif_seen pif_log_tick(const pif_log *log, uint32_t time);

/* As pif_call and pif_finish. The begin and each step has a line. */
pif_seen pif_log_call(const pif_log *log, uint32_t thread, pif_request request);
pif_seen pif_log_finish(const pif_log *log, uint32_t thread);

#ifdef __cplusplus
}
#endif

#endif
