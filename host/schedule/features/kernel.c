/* Waits for files, signals and children. */
#include <errno.h>
#include <fcntl.h>
#include <poll.h>
#include <sched.h>
#include <signal.h>
#include <stdlib.h>
#include <string.h>
#include <sys/file.h>
#include <sys/select.h>
#include <sys/wait.h>
#include <unistd.h>

#include "features.h"

static int ends[2];

static void *write_two(void *unused)
{
    CHECK(write(ends[1], "ab", 2) == 2);
    return unused;
}

static void *read_two(void *unused)
{
    char bytes[2];
    struct pollfd file = {ends[0], POLLIN, 0};
    fd_set files;

    CHECK(read(ends[0], bytes, 1) == 1 && bytes[0] == 'a');
    CHECK(poll(&file, 1, -1) == 1 && file.revents == POLLIN);
    FD_ZERO(&files);
    FD_SET(ends[0], &files);
    CHECK(select(ends[0] + 1, &files, NULL, NULL, NULL) == 1 && FD_ISSET(ends[0], &files));
    CHECK(read(ends[0], bytes, 2) == 1 && bytes[0] == 'b');
    CHECK(poll(&file, 1, 1000) == 0);
    return unused;
}

static void pipes(void)
{
    CHECK(pipe(ends) == 0);
    run_two(read_two, write_two);
}

/* More than a pipe holds. */
static void *write_much(void *unused)
{
    static char much[1 << 17];

    CHECK(write(ends[1], much, sizeof much / 2) == sizeof much / 2);
    CHECK(write(ends[1], much, sizeof much / 2) == sizeof much / 2);
    close(ends[1]);
    return unused;
}

static void *read_all(void *unused)
{
    static char bytes[1 << 12];
    ssize_t size, all = 0;

    while ((size = read(ends[0], bytes, sizeof bytes)) > 0)
        all += size;
    CHECK(all == 1 << 17);
    return unused;
}

static void full_pipe(void)
{
    CHECK(pipe(ends) == 0);
    run_two(write_much, read_all);
}

/* A lock of a file, which only the other thread gives up. */
static char path[] = "/tmp/pif-schedule-XXXXXX";

static void *lock_file(void *unused)
{
    int file = open(path, O_RDWR);

    CHECK(file >= 0 && flock(file, LOCK_EX) == 0);
    for (int i = 0; i < 3; i++)
        sched_yield();
    CHECK(flock(file, LOCK_UN) == 0 && close(file) == 0);
    return unused;
}

static void locks_of_files(void)
{
    int made = mkstemp(path);

    CHECK(made >= 0);
    run_two(lock_file, lock_file);
    CHECK(unlink(path) == 0 && close(made) == 0);
}

static sigset_t wanted;
static pthread_t waiter;

static void *wait_for_signals(void *unused)
{
    int number;
    siginfo_t found;
    struct timespec time = {1, 0};

    CHECK(sigwait(&wanted, &number) == 0 && number == SIGUSR1);
    CHECK(sigtimedwait(&wanted, &found, &time) == -1 && errno == EAGAIN);
    return unused;
}

static void *send_signal(void *unused)
{
    CHECK(pthread_kill(waiter, SIGUSR1) == 0);
    return unused;
}

static void signals(void)
{
    sigemptyset(&wanted);
    sigaddset(&wanted, SIGUSR1);
    CHECK(pthread_sigmask(SIG_BLOCK, &wanted, NULL) == 0);
    waiter = start(wait_for_signals, NULL);
    pthread_t sender = start(send_signal, NULL);
    CHECK(pthread_join(waiter, NULL) == 0 && pthread_join(sender, NULL) == 0);
}

static pthread_mutex_t mutex = PTHREAD_MUTEX_INITIALIZER;
static pthread_cond_t variable = PTHREAD_COND_INITIALIZER;

static void *set_nothing(void *unused) { return unused; }

/* The child goes on with glibc, on objects that were used here. */
static void *have_child(void *unused)
{
    int status;

    CHECK(pthread_mutex_lock(&mutex) == 0);
    CHECK(pthread_cond_signal(&variable) == 0 && pthread_mutex_unlock(&mutex) == 0);
    pid_t child = fork();
    if (child == 0) {
        pthread_t thread = start(set_nothing, NULL);
        bool is_right = pthread_mutex_lock(&mutex) == 0 && pthread_cond_broadcast(&variable) == 0
                        && pthread_mutex_unlock(&mutex) == 0 && pthread_join(thread, NULL) == 0;
        _exit(is_right ? 5 : 6);
    }
    CHECK(waitpid(child, &status, 0) == child && WIFEXITED(status) && WEXITSTATUS(status) == 5);
    return unused;
}

static void children(void) { run_two(have_child, set_nothing); }

const Feature kernel_features[] = {
    {"pipes", pipes},     {"full_pipe", full_pipe}, {"locks_of_files", locks_of_files},
    {"signals", signals}, {"children", children},   {NULL, NULL},
};
