/* Calls of the kernel that wait: for a file, a signal, a process. Each is asked without waiting at every choice, so
   that a pipe between two threads is part of the schedule. What comes from outside of the program is no part of it. */
#define _GNU_SOURCE
#include <errno.h>
#include <fcntl.h>
#include <limits.h>
#include <poll.h>
#include <signal.h>
#include <sys/epoll.h>
#include <sys/file.h>
#include <sys/msg.h>
#include <sys/select.h>
#include <sys/sem.h>
#include <sys/socket.h>
#include <sys/stat.h>
#include <sys/syscall.h>
#include <sys/uio.h>
#include <sys/wait.h>
#include <termios.h>
#include <unistd.h>

#include "schedule.h"

enum { MILLISECOND = 1000, MICROSECONDS = 1000000, NANOSECONDS = 1000 };

/* What one thread wrote, sent or signalled comes before what another one read: by all files and signals at once. */
static const char of_kernel;

static void order_by_kernel(void (*orders)(const Thread *, const volatile void *))
{
    const Thread *me = is_on() ? this_thread() : NULL;

    if (me != NULL)
        orders(me, &of_kernel);
}

/* Waits until the condition holds, or that long, in microseconds; below 0: for good. false: a signal's handler ran
   before; then errno is EINTR. */
static bool wait_once(Thread *me, Condition *condition, const void *on, int64_t time)
{
    point(me);
    if (time >= 0)
        set_timeout(me, (uint64_t)time);
    me->asks_the_kernel = true;
    bool holds = wait_or_handle(me, condition, on, "waits for the kernel");
    me->asks_the_kernel = false;
    take_order(me, &of_kernel);
    leave(me);
    errno = holds ? errno : EINTR;
    return holds;
}

/* Likewise, and goes on behind handlers, as calls with SA_RESTART do. */
static void wait_outside(Thread *me, Condition *condition, const void *on)
{
    point(me);
    me->asks_the_kernel = true;
    wait_until(me, condition, on, "waits for the kernel");
    me->asks_the_kernel = false;
    take_order(me, &of_kernel);
    leave(me);
}

static int64_t length_of(const struct timespec *time)
{
    return time == NULL ? -1 : (int64_t)time->tv_sec * MICROSECONDS + (time->tv_nsec + NANOSECONDS - 1) / NANOSECONDS;
}

static const struct timespec no_time;

/* POLL AND SELECT */

typedef struct {
    struct pollfd *files;
    nfds_t count;
    const sigset_t *blocked;
} Polled;

static int poll_now(const Polled *polled)
{
    struct timespec none = no_time;

    return (int)syscall(SYS_ppoll, polled->files, polled->count, &none, polled->blocked, _NSIG / 8);
}

static bool is_polled(const Thread *thread) { return is_due(thread) || poll_now(thread->waits_for) != 0; }

int ppoll(struct pollfd *files, nfds_t count, const struct timespec *time, const sigset_t *blocked)
{
    Polled polled = {files, count, blocked};
    Thread *me = enter_if_on("poll", CALLER);

    if (me == NULL)
        return BELOW(ppoll)(files, count, time, blocked);
    return wait_once(me, is_polled, &polled, length_of(time)) ? poll_now(&polled) : -1;
}

int poll(struct pollfd *files, nfds_t count, int milliseconds)
{
    struct timespec time = {milliseconds / MILLISECOND, (long)(milliseconds % MILLISECOND) * MICROSECONDS};

    if (!is_on())
        return BELOW(poll)(files, count, milliseconds);
    return ppoll(files, count, milliseconds < 0 ? NULL : &time, NULL);
}

typedef struct {
    int count;
    fd_set *sets[3];
} Selected;

static void copy_sets(fd_set *const from[3], fd_set into[3], fd_set *given[3])
{
    for (int i = 0; i < 3; i++) {
        if (from[i] != NULL)
            into[i] = *from[i];
        given[i] = from[i] == NULL ? NULL : &into[i];
    }
}

static int select_now(const Selected *selected, fd_set result[3])
{
    struct timespec none = no_time;
    fd_set *given[3];

    copy_sets(selected->sets, result, given);
    return (int)syscall(SYS_pselect6, selected->count, given[0], given[1], given[2], &none, NULL);
}

static bool is_selected(const Thread *thread)
{
    fd_set result[3];

    return is_due(thread) || select_now(thread->waits_for, result) != 0;
}

static int select_for(Thread *me, Selected *selected, int64_t time)
{
    fd_set result[3];

    if (!wait_once(me, is_selected, selected, time))
        return -1;
    int answer = select_now(selected, result);
    for (int i = 0; answer >= 0 && i < 3; i++)
        if (selected->sets[i] != NULL)
            *selected->sets[i] = result[i];
    return answer;
}

int select(int count, fd_set *restrict read, fd_set *restrict write, fd_set *restrict except,
           struct timeval *restrict time)
{
    Selected selected = {count, {read, write, except}};
    Thread *me = enter_if_on("select", CALLER);

    if (me == NULL)
        return BELOW(select)(count, read, write, except, time);
    return select_for(me, &selected, time == NULL ? -1 : (int64_t)time->tv_sec * MICROSECONDS + time->tv_usec);
}

int pselect(int count, fd_set *restrict read, fd_set *restrict write, fd_set *restrict except,
            const struct timespec *restrict time, const sigset_t *restrict blocked)
{
    Selected selected = {count, {read, write, except}};
    Thread *me = enter_if_on("pselect", CALLER);

    if (me == NULL)
        return BELOW(pselect)(count, read, write, except, time, blocked);
    if (blocked != NULL)
        stop(UNSUPPORTED, "pselect with a mask of signals");
    return select_for(me, &selected, length_of(time));
}

int epoll_wait(int file, struct epoll_event *events, int most, int milliseconds)
{
    struct pollfd polled = {file, POLLIN, 0};
    int64_t time = milliseconds < 0 ? -1 : (int64_t)milliseconds * MILLISECOND;
    Thread *me = enter_if_on("epoll_wait", CALLER);

    if (me == NULL)
        return BELOW(epoll_wait)(file, events, most, milliseconds);
    return wait_once(me, is_polled, &(Polled){&polled, 1, NULL}, time) ? BELOW(epoll_wait)(file, events, most, 0) : -1;
}

/* FILES: a call that may wait comes when it no longer has to. */

static bool may_wait(int file)
{
    struct stat present;

    return is_on() && fstat(file, &present) == 0 && (S_ISFIFO(present.st_mode) || S_ISSOCK(present.st_mode))
           && (fcntl(file, F_GETFL) & O_NONBLOCK) == 0;
}

static void wait_for_file(const char *call, uintptr_t caller, int file, short events)
{
    struct pollfd polled = {file, events, 0};
    int number = errno;
    Thread *me = may_wait(file) ? enter_if_on(call, caller) : NULL;

    if (me != NULL)
        wait_outside(me, is_polled, &(Polled){&polled, 1, NULL});
    errno = number;
}

#define FILE_CALL(type, call, events, parameters, arguments) \
    type call parameters \
    { \
        wait_for_file(#call, CALLER, file, events); \
        if (events == POLLOUT) \
            order_by_kernel(pass_order); \
        type answer = BELOW(call) arguments; \
        if (events == POLLIN) \
            order_by_kernel(take_order); \
        return answer; \
    }
FILE_CALL(ssize_t, read, POLLIN, (int file, void *bytes, size_t size), (file, bytes, size))
FILE_CALL(ssize_t, readv, POLLIN, (int file, const struct iovec *parts, int count), (file, parts, count))
FILE_CALL(ssize_t, recv, POLLIN, (int file, void *bytes, size_t size, int flags), (file, bytes, size, flags))
FILE_CALL(ssize_t, recvmsg, POLLIN, (int file, struct msghdr *message, int flags), (file, message, flags))
FILE_CALL(ssize_t, recvfrom, POLLIN,
          (int file, void *restrict bytes, size_t size, int flags, __SOCKADDR_ARG from, socklen_t *restrict length),
          (file, bytes, size, flags, from, length))
FILE_CALL(int, accept, POLLIN, (int file, __SOCKADDR_ARG from, socklen_t *restrict length), (file, from, length))
FILE_CALL(int, accept4, POLLIN, (int file, __SOCKADDR_ARG from, socklen_t *restrict length, int flags),
          (file, from, length, flags))
FILE_CALL(ssize_t, writev, POLLOUT, (int file, const struct iovec *parts, int count), (file, parts, count))
FILE_CALL(ssize_t, send, POLLOUT, (int file, const void *bytes, size_t size, int flags), (file, bytes, size, flags))

static bool is_pipe(int file)
{
    struct stat present;

    return fstat(file, &present) == 0 && S_ISFIFO(present.st_mode);
}

/* A pipe that isn't full takes PIPE_BUF bytes. More are written in parts, each once there is room. */
ssize_t write(int file, const void *bytes, size_t size)
{
    ssize_t part, all = 0;

    wait_for_file("write", CALLER, file, POLLOUT);
    order_by_kernel(pass_order);
    if (size <= PIPE_BUF || !may_wait(file) || !is_pipe(file))
        return BELOW(write)(file, bytes, size);
    do {
        size_t rest = size - (size_t)all;
        part = BELOW(write)(file, (const char *)bytes + all, rest < PIPE_BUF ? rest : PIPE_BUF);
        all += part > 0 ? part : 0;
        if (part > 0 && (size_t)all < size)
            wait_for_file("write", CALLER, file, POLLOUT);
    } while (part > 0 && (size_t)all < size);
    return all > 0 ? all : part;
}

/* SIGNALS: those of the process, and of a thread, which nobody else can ask for. */

static bool has_signal(const Thread *thread)
{
    const sigset_t *wanted = thread->waits_for;
    sigset_t pending, both;

    sigpending(&pending);
    sigandset(&both, &pending, wanted);
    for (int signal = 1; signal < _NSIG; signal++)
        if ((thread->signals & bit_of_signal(signal)) != 0 && sigismember(wanted, signal) == 1)
            return true;
    return is_due(thread) || !sigisemptyset(&both);
}

/* A signal to a thread that waits for it. */
int pthread_kill(pthread_t name, int signal)
{
    Thread *me = enter_if_on("pthread_kill", CALLER);

    if (me == NULL)
        return BELOW(pthread_kill)(name, signal);
    point(me);
    pass_order(me, &of_kernel);
    Thread *thread = thread_named(name);
    bool is_there = thread != NULL && !thread->gone, is_caught = is_there && has_caught(thread, signal);
    if (is_there && !is_caught && signal > 0 && signal < _NSIG)
        thread->signals |= bit_of_signal(signal);
    leave(me);
    run_handlers(me);
    return is_caught || (thread != NULL && thread->stopped) ? 0 : BELOW(pthread_kill)(name, signal);
}

static bool wait_for_signal(Thread *me, const sigset_t *wanted, int64_t time)
{
    if (me == NULL)
        return true;
    bool has_come = wait_once(me, has_signal, wanted, time);
    me->signals = 0;
    return has_come;
}

int sigwait(const sigset_t *restrict wanted, int *restrict signal)
{
    Thread *me = enter_if_on("sigwait", CALLER);

    while (!wait_for_signal(me, wanted, -1))
        me->in_call = true;
    return BELOW(sigwait)(wanted, signal);
}

int sigwaitinfo(const sigset_t *restrict wanted, siginfo_t *restrict signal)
{
    bool has_come = wait_for_signal(enter_if_on("sigwaitinfo", CALLER), wanted, -1);

    return has_come ? BELOW(sigwaitinfo)(wanted, signal) : -1;
}

int sigtimedwait(const sigset_t *restrict wanted, siginfo_t *restrict signal, const struct timespec *restrict time)
{
    Thread *me = enter_if_on("sigtimedwait", CALLER);

    if (me == NULL)
        return BELOW(sigtimedwait)(wanted, signal, time);
    return wait_for_signal(me, wanted, length_of(time)) ? BELOW(sigtimedwait)(wanted, signal, &no_time) : -1;
}

/* OUTSIDE: the call is made without the turn, so that others go on meanwhile. When it comes back is no part of the
   schedule, and the tool says that. */

#define OUTSIDE_CALL(type, call, parameters, arguments) \
    type call parameters \
    { \
        Thread *me = enter_if_on(#call, CALLER); \
\
        if (me == NULL) \
            return BELOW(call) arguments; \
        point(me); \
        tell_outside(#call); \
        pass_order(me, &of_kernel); \
        leave_turn(me); \
        type answer = BELOW(call) arguments; \
        int number = errno; \
        come_back(me); \
        take_order(me, &of_kernel); \
        leave(me); \
        errno = number; \
        return answer; \
    }
OUTSIDE_CALL(int, flock, (int file, int how), (file, how))
OUTSIDE_CALL(int, lockf, (int file, int how, off_t length), (file, how, length))
OUTSIDE_CALL(int, connect, (int file, __CONST_SOCKADDR_ARG to, socklen_t length), (file, to, length))
OUTSIDE_CALL(int, tcdrain, (int file), (file))
OUTSIDE_CALL(int, msgsnd, (int queue, const void *message, size_t size, int flags), (queue, message, size, flags))
OUTSIDE_CALL(ssize_t, msgrcv, (int queue, void *message, size_t size, long type, int flags),
             (queue, message, size, type, flags))
OUTSIDE_CALL(int, semop, (int set, struct sembuf *does, size_t count), (set, does, count))

/* CHILDREN */

typedef struct {
    idtype_t kind;
    id_t which;
    int options;
} Child;

static bool has_changed(const Thread *thread)
{
    const Child *child = thread->waits_for;
    siginfo_t found = {.si_pid = 0};

    return waitid(child->kind, child->which, &found, child->options | WNOHANG | WNOWAIT) != 0 || found.si_pid != 0;
}

static Child child_of(pid_t process, int options)
{
    int wanted = WEXITED | (options & WUNTRACED ? WSTOPPED : 0) | (options & WCONTINUED);

    if (process > 0)
        return (Child){P_PID, (id_t)process, wanted};
    return process == -1 ? (Child){P_ALL, 0, wanted} : (Child){P_PGID, (id_t)-process, wanted};
}

pid_t waitpid(pid_t process, int *status, int options)
{
    Child child = child_of(process, options);
    Thread *me = (options & WNOHANG) != 0 ? NULL : enter_if_on("waitpid", CALLER);

    if (me != NULL)
        wait_outside(me, has_changed, &child);
    return BELOW(waitpid)(process, status, options);
}

pid_t wait(int *status) { return waitpid(-1, status, 0); }
