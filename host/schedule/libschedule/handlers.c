/* Handlers of signals. Each runs at a point of its thread, or while that waits, and never where the signal came. So
   where it runs is part of the schedule, if the signal is one that the program sends to itself. */
#define _GNU_SOURCE
#include <errno.h>
#include <signal.h>
#include <string.h>
#include <unistd.h>

#include "schedule.h"

/* What the program has asked for, by signal. In the kernel stands `catch`. */
static struct sigaction handlers[_NSIG];
static bool is_kept[_NSIG];
static siginfo_t told[_NSIG]; /* of the last one that came */

/* Those that an instruction makes can't wait, and neither can those of glibc's own. */
static bool can_wait(int signal)
{
    return signal > 0 && signal < _NSIG && signal != SIGSEGV && signal != SIGBUS && signal != SIGFPE && signal != SIGILL
           && signal != SIGTRAP && signal != SIGABRT && signal != SIGSYS && (signal < 32 || signal >= SIGRTMIN);
}

static bool has_handler(const struct sigaction *action)
{
    return action->sa_handler != SIG_DFL && action->sa_handler != SIG_IGN;
}

static void call(const struct sigaction *action, int signal, siginfo_t *info, void *context)
{
    if ((action->sa_flags & SA_SIGINFO) != 0)
        action->sa_sigaction(signal, info, context);
    else
        action->sa_handler(signal);
}

/* In the child of a fork, and before there are threads, it runs at once. */
static void catch(int signal, siginfo_t *info, void *context)
{
    Thread *me = is_on() ? this_thread() : NULL;

    if (me == NULL) {
        call(&handlers[signal], signal, info, context);
        return;
    }
    told[signal] = *info;
    atomic_fetch_or(&me->caught, bit_of_signal(signal));
}

int sigaction(int signal, const struct sigaction *restrict new, struct sigaction *restrict old)
{
    if (!keeps_time || !can_wait(signal))
        return BELOW(sigaction)(signal, new, old);
    const struct sigaction before = handlers[signal];
    const bool was_kept = is_kept[signal];
    struct sigaction ours;
    if (new != NULL && has_handler(new)) {
        handlers[signal] = ours = *new;
        ours.sa_sigaction = catch;
        ours.sa_flags = (new->sa_flags & ~SA_RESETHAND) | SA_SIGINFO;
        new = &ours;
    }
    int answer = BELOW(sigaction)(signal, new, old);
    if (answer == 0 && new != NULL)
        is_kept[signal] = new == &ours;
    if (answer == 0 && was_kept && old != NULL)
        *old = before;
    return answer;
}

static sighandler_t set_handler(int signal, sighandler_t handler, int flags)
{
    struct sigaction new = {.sa_flags = flags}, old;

    new.sa_handler = handler;
    if ((flags & SA_NODEFER) == 0)
        sigaddset(&new.sa_mask, signal);
    return sigaction(signal, &new, &old) != 0 ? SIG_ERR : old.sa_handler;
}

sighandler_t signal(int number, sighandler_t handler) { return set_handler(number, handler, SA_RESTART); }

sighandler_t __sysv_signal(int number, sighandler_t handler)
{
    return set_handler(number, handler, SA_RESETHAND | SA_NODEFER);
}

/* MASKS */

static void read_mask(Thread *me)
{
    sigset_t blocked;

    BELOW(pthread_sigmask)(SIG_BLOCK, NULL, &blocked);
    me->blocked = 0;
    for (int signal = 1; signal < _NSIG; signal++)
        if (sigismember(&blocked, signal) == 1)
            me->blocked |= bit_of_signal(signal);
}

void begin_handlers(Thread *first) { read_mask(first); }

/* What was pending and no longer is blocked runs before the call returns. */
int pthread_sigmask(int how, const sigset_t *restrict new, sigset_t *restrict old)
{
    int answer = BELOW(pthread_sigmask)(how, new, old);
    Thread *me = is_on() ? this_thread() : NULL;

    if (me != NULL && new != NULL && !me->in_call) {
        read_mask(me);
        run_handlers(me);
    }
    return answer;
}

int sigprocmask(int how, const sigset_t *restrict new, sigset_t *restrict old)
{
    int why = pthread_sigmask(how, new, old);

    errno = why != 0 ? why : errno;
    return why == 0 ? 0 : -1;
}

/* HANDLERS */

/* The handler is as a call of its own: its thread is inside of none, and waits for nothing. */
static void begin_handler(Thread *me)
{
    me->is_inside = me->is_inside || me->open;
    me->in_call = me->open = me->is_timed = me->asks_the_kernel = me->wants_lock = me->yields = false;
    me->wants = 0;
    me->can_go = NULL;
    me->waits_for = NULL;
}

static void end_handler(Thread *me, const Thread *before)
{
    me->is_inside = before->is_inside;
    me->in_call = before->in_call;
    me->open = before->open;
    me->is_timed = before->is_timed;
    me->deadline = before->deadline;
    me->asks_the_kernel = before->asks_the_kernel;
    me->wants = before->wants;
    me->wants_lock = before->wants_lock;
    me->was_idle = before->was_idle;
    me->yields = before->yields;
    me->seen = before->seen;
    me->can_go = before->can_go;
    me->waits_for = before->waits_for;
    me->waits_how = before->waits_how;
    me->call = before->call;
    me->caller = before->caller;
}

static void run_handler(Thread *me, int number)
{
    const struct sigaction action = handlers[number];
    const Thread before = *me;
    sigset_t blocked, old;
    int error = errno;

    if ((action.sa_flags & SA_RESETHAND) != 0)
        set_handler(number, SIG_DFL, 0);
    blocked = action.sa_mask;
    if ((action.sa_flags & SA_NODEFER) == 0)
        sigaddset(&blocked, number);
    BELOW(pthread_sigmask)(SIG_BLOCK, &blocked, &old);
    read_mask(me);
    begin_handler(me);
    call(&action, number, &told[number], NULL);
    end_handler(me, &before);
    me->handled++;
    BELOW(pthread_sigmask)(SIG_SETMASK, &old, NULL);
    read_mask(me);
    errno = error;
}

void run_handlers(Thread *me)
{
    for (int number = 1; number < _NSIG && me->caught != 0; number++)
        if ((atomic_fetch_and(&me->caught, ~bit_of_signal(number)) & bit_of_signal(number)) != 0)
            run_handler(me, number);
}

/* SIGNALS OF THE PROGRAM TO ITSELF */

/* Whether the signal has a handler that this thread can run. It has it then. */
bool has_caught(Thread *thread, int number)
{
    if (number <= 0 || number >= _NSIG || !is_kept[number] || (thread->blocked & bit_of_signal(number)) != 0)
        return false;
    told[number] = (siginfo_t){.si_signo = number, .si_code = SI_TKILL};
    told[number].si_pid = getpid();
    atomic_fetch_or(&thread->caught, bit_of_signal(number));
    return true;
}

int raise(int number)
{
    Thread *me = is_on() ? this_thread() : NULL;

    if (me == NULL || me->in_call || !has_caught(me, number))
        return BELOW(raise)(number);
    run_handlers(me);
    return 0;
}

/* The thread that sends it runs the handler, if it can, and else the first one that can. */
static bool is_caught_by_any(Thread *me, int number)
{
    bool is_caught = has_caught(me, number);

    for (uint32_t i = 0; i < living.count && !is_caught; i++)
        is_caught = has_caught(living.at[i], number);
    return is_caught;
}

int kill(pid_t process, int number)
{
    Thread *me = process == getpid() ? enter_if_on("kill", CALLER) : NULL;

    if (me == NULL)
        return BELOW(kill)(process, number);
    point(me);
    bool is_caught = is_caught_by_any(me, number);
    leave(me);
    run_handlers(me);
    return is_caught ? 0 : BELOW(kill)(process, number);
}

/* WAITS FOR A HANDLER */

static bool never(const Thread *thread)
{
    (void)thread;
    return false;
}

/* One that runs at the point before the wait is in it. */
static int wait_for_handler(Thread *me)
{
    uint32_t handled = me->handled;

    point(me);
    me->asks_the_kernel = true;
    if (me->handled == handled)
        wait_or_handle(me, never, NULL, "waits for a signal");
    me->asks_the_kernel = false;
    leave(me);
    errno = EINTR;
    return -1;
}

int pause(void)
{
    Thread *me = enter_if_on("pause", CALLER);

    return me == NULL ? BELOW(pause)() : wait_for_handler(me);
}

int sigsuspend(const sigset_t *mask)
{
    Thread *me = enter_if_on("sigsuspend", CALLER);
    sigset_t old;

    if (me == NULL)
        return BELOW(sigsuspend)(mask);
    BELOW(pthread_sigmask)(SIG_SETMASK, mask, &old);
    read_mask(me);
    int answer = wait_for_handler(me);
    pthread_sigmask(SIG_SETMASK, &old, NULL);
    errno = EINTR;
    return answer;
}
