/* Calls that can't be scheduled. Each is refused by its name, so that no run goes on as if it were. */
#define _GNU_SOURCE
#include <sched.h>

#include "schedule.h"

#define REFUSED_CALL(call, parameters, arguments) \
    int call parameters \
    { \
        if (enter_if_on(#call, CALLER) != NULL) \
            stop(UNSUPPORTED, "%s", #call); \
        return BELOW(call) arguments; \
    }
REFUSED_CALL(pthread_cancel, (pthread_t thread), (thread))
REFUSED_CALL(pthread_mutex_setprioceiling, (pthread_mutex_t *restrict mutex, int ceiling, int *restrict old),
             (mutex, ceiling, old))
REFUSED_CALL(sched_setscheduler, (pid_t thread, int policy, const struct sched_param *parameters),
             (thread, policy, parameters))
REFUSED_CALL(sched_setparam, (pid_t thread, const struct sched_param *parameters), (thread, parameters))
