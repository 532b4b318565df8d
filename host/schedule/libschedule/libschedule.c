/* libschedule.so: runs a program of glibc on the core or the POSIX machine, one thread at a time, and in the order of a
   schedule. This file starts it: which process is scheduled, and what becomes of its children. */
#define _GNU_SOURCE
#include <errno.h>
#include <stdio.h>
#include <stdlib.h>
#include <string.h>
#include <sys/syscall.h>
#include <unistd.h>

#include "schedule.h"

enum { MOST_OF_PATH = 4096, STATUS_OF_FAULT = 2 };

/* OFF: nothing is scheduled in this process. WAITS: its first call of a thread or a lock takes the run. */
typedef enum { OFF, WAITS, ON } State;

Options options;

bool keeps_time;

static State state = OFF;
static char folder[MOST_OF_PATH];

bool is_on(void) { return state == ON; }

/* What the child of a fork does isn't scheduled. */
static void in_child(void)
{
    state = OFF;
    keeps_time = false;
    leave_processor();
}

static void in_parent(void)
{
    if (state == ON)
        tell_fork();
}

void hide_variable(const char *name)
{
    extern char **environ;
    size_t length = strlen(name);

    for (char **entry = environ; entry != NULL && *entry != NULL; entry++)
        if (strncmp(*entry, name, length) == 0 && (*entry)[length] == '=')
            (*entry)[0] = '_';
}

static void fail(const char *why)
{
    dprintf(STDERR_FILENO, "libschedule: %s\n", why);
    syscall(SYS_exit_group, STATUS_OF_FAULT);
}

/* The run is this process's if no other one has taken it. */
static void take_the_run(void)
{
    char asked[MOST_OF_PATH + sizeof "/asked"];

    state = OFF;
    if (!take_told())
        return;
    hide_variable("PIF_SCHEDULE"); /* what the program starts finds no run to take */
    strcat(strcpy(asked, folder), "/asked");
    if (!read_asked(asked))
        fail("what is asked can't be read");
    if (options.posix && !make_machine())
        fail("there is no memory for the POSIX machine, or a rule isn't known");
    if (!begin_threads() || pthread_atfork(NULL, in_parent, in_child) != 0)
        fail("there is no key for a thread's end");
    begin_strategy();
    share_processor();
    state = ON;
}

/* The thread that makes this call, if it is scheduled. */
Thread *enter_if_on(const char *call, uintptr_t caller)
{
    if (state != ON)
        return NULL;
    Thread *me = this_thread();
    if (me == NULL)
        stop(UNSUPPORTED, "%s by a thread that pthread_create didn't start", call);
    if (me->in_call || running != me)
        stop(UNSUPPORTED, "%s by a signal's handler, while its thread is inside of %s", call, me->call);
    me->in_call = true;
    me->was_idle = me->idle;
    me->idle = 0;
    me->yields = me->was_idle >= MOST_IDLE;
    me->call = call;
    me->caller = caller;
    return me;
}

/* Likewise of a call that only a program makes which has threads. */
Thread *enter(const char *call, uintptr_t caller)
{
    int number = errno;

    if (state == WAITS)
        take_the_run();
    errno = number;
    return enter_if_on(call, caller);
}

void leave(Thread *me) { me->in_call = false; }

__attribute__((constructor)) static void begin(void)
{
    const char *given = getenv("PIF_SCHEDULE");

    if (given == NULL || given[0] == '\0' || strlen(given) >= MOST_OF_PATH) {
        take_processors();
        return;
    }
    strcpy(folder, given);
    if (!make_core())
        fail("there is no memory for a core");
    serve();
    if (!open_told(folder))
        fail("the folder of the run has no files 'told' and 'story'");
    state = WAITS;
    keeps_time = true;
}

__attribute__((destructor)) static void finish(void)
{
    if (state == ON)
        tell_exit();
}
