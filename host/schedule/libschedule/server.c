/* The program is started once, up to here, and forked for each run: that is ten times faster than to start it. */
#define _GNU_SOURCE
#include <signal.h>
#include <stdarg.h>
#include <stdio.h>
#include <stdlib.h>
#include <sys/prctl.h>
#include <sys/wait.h>
#include <unistd.h>

#include "schedule.h"

enum { BASE = 10 };

/* What the libpif is that is linked. */
const char *pif_made(void);

/* Where the tool asks for a run, and where it is told of one. */
static int from_tool, to_tool;

static void answer(const char *format, ...)
{
    va_list list;

    va_start(list, format);
    if (vdprintf(to_tool, format, list) < 0)
        _exit(2);
    va_end(list);
}

/* Ends with who has started it. */
static void end_with_parent(void) { prctl(PR_SET_PDEATHSIG, SIGKILL); }

static void begin_run(void)
{
    close(from_tool);
    close(to_tool);
    setpgid(0, 0);
    end_with_parent();
    unsetenv("PIF_SCHEDULE_SERVER");
}

/* Waits for words of the tool. Each asks for a run, in a process of its own, for which this returns. */
void serve(void)
{
    const char *given = getenv("PIF_SCHEDULE_SERVER");
    char word, *behind;
    int status;

    if (given == NULL)
        return;
    from_tool = (int)strtol(given, &behind, BASE);
    to_tool = *behind == ',' ? (int)strtol(behind + 1, NULL, BASE) : -1;
    end_with_parent();
    answer("ready %s\n", pif_made());
    while (read(from_tool, &word, 1) == 1) {
        pid_t run = fork();
        if (run == 0) {
            begin_run();
            return;
        }
        answer("process %d\n", run);
        if (run < 0 || waitpid(run, &status, 0) != run)
            _exit(2);
        answer("status %d\n", status);
    }
    _exit(0);
}
