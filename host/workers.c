/* A thread of this machine for each thread of the script: they start, take orders, are held behind waits, and end. */
#include <sched.h>
#include <signal.h>
#include <sys/syscall.h>
#include <time.h>
#include <unistd.h>

#include "host.h"

enum { STACK_BYTES = 262144, END_SIGNAL = SIGUSR1 };

enum { GO_ON, ROUSE }; /* the bytes of its pipe */

static __thread Worker *own;

Worker *this_worker(void) { return own; }

void pause_us(long us)
{
    struct timespec time = {.tv_sec = us / 1000000, .tv_nsec = us % 1000000 * 1000};

    while (nanosleep(&time, &time) != 0 && errno == EINTR)
        ;
}

/* Ends the thread at once, wherever it is, with its robust list in place. */
static void end_now(int signal)
{
    (void)signal;
    syscall(SYS_exit, 0);
}

static char read_byte(const Worker *worker)
{
    char byte;

    while (read(worker->orders[0], &byte, 1) != 1)
        if (errno != EINTR)
            syscall(SYS_exit, 0);
    return byte;
}

static void write_byte(const Worker *worker, char byte)
{
    while (write(worker->orders[1], &byte, 1) != 1)
        if (errno != EINTR)
            _exit(STATUS_INPUT_OUTPUT);
}

/* A thread without work blocks in `read`, so that whoever blocks in the futex call waits. */
static void take_order(Worker *worker)
{
    keep_processor(worker);
    do
        note_turn(worker);
    while (read_byte(worker) == ROUSE);
}

void order(Worker *worker)
{
    worker->told = false;
    worker->stage = WORKS;
    write_byte(worker, GO_ON);
}

void rouse(Worker *worker) { write_byte(worker, ROUSE); }

bool wait_in_kernel(Worker *worker)
{
    int saved = errno;

    if (!worker->told)
        return false;
    worker->stage = HELD;
    take_order(worker);
    errno = saved;
    return true;
}

static void *work(void *argument)
{
    Worker *worker = argument;

    own = worker;
    worker->kernel_id = (pid_t)syscall(SYS_gettid);
    if (worker->host->way == RAW)
        list_raw(worker);
    worker->stage = RESTS;
    for (;;) {
        take_order(worker);
        int answer = worker->host->way == RAW ? make_raw_step(worker) : call_glibc(worker);
        worker->answer = answer;
        worker->stage = answer == WENT ? STEPPED : ANSWERED;
    }
    return NULL;
}

static bool create(Worker *worker, uint32_t priority)
{
    struct sched_param parameters = {.sched_priority = (int)priority};
    pthread_attr_t attributes;

    if (pthread_attr_init(&attributes) != 0)
        return false;
    bool done = pthread_attr_setstacksize(&attributes, STACK_BYTES) == 0 &&
                pthread_attr_setinheritsched(&attributes, PTHREAD_EXPLICIT_SCHED) == 0 &&
                pthread_attr_setschedpolicy(&attributes, SCHED_FIFO) == 0 &&
                pthread_attr_setschedparam(&attributes, &parameters) == 0 &&
                pthread_create(&worker->handle, &attributes, work, worker) == 0;
    pthread_attr_destroy(&attributes);
    return done;
}

bool start_worker(Host *host, Worker *worker, uint32_t priority)
{
    struct sigaction action = {.sa_handler = end_now};

    worker->host = host;
    worker->stage = STARTS;
    if (sigaction(END_SIGNAL, &action, NULL) != 0 || pipe(worker->orders) != 0 || !create(worker, priority))
        return false;
    while (worker->stage == STARTS)
        pause_us(50);
    return true;
}

bool end_worker(Worker *worker)
{
    if (syscall(SYS_tgkill, getpid(), worker->kernel_id, END_SIGNAL) != 0)
        return false;
    while (!is_gone(worker->kernel_id))
        pause_us(50);
    close(worker->orders[0]);
    close(worker->orders[1]);
    worker->ended = true;
    worker->open = false;
    return true;
}
