/* The processes of a run, and how they end. Nothing of a process that is killed runs any more, so others say it:

   - A thread was alive at each of its own stamps. `dying` stands at the last of them, which is right however it ended.
   - Who is about to kill a process makes a stamp first, and looks at its threads then. One that hasn't begun to end at
     that look was alive at the stamp, so `dying` stands there. Linux marks a thread as exiting before it passes its
     robust mutexes on. A process that ends by `exit`, `_exit` or a signal that it could handle does so itself.
   - Linux lets a process be waited for when all its threads have passed their mutexes on. So `end` is stamped after the
     wait. Nor is anything left of the program that a process ran before its `execve`, or of an older process of the
     same number.

   A thread whose end nobody saw has `dying` alone, if another process goes on after it. */
#define _GNU_SOURCE
#include <errno.h>
#include <fcntl.h>
#include <limits.h>
#include <signal.h>
#include <stdlib.h>
#include <string.h>
#include <sys/mman.h>
#include <sys/prctl.h>
#include <sys/resource.h>
#include <sys/stat.h>
#include <sys/wait.h>
#include <unistd.h>

#include "record.h"

enum { IS_EXITING = 4, FIELDS_BEFORE_FLAGS = 6, MOST_OF_STAT = 512, MOST_OF_PATH = 80 };

static struct {
    int (*kill)(pid_t, int);
    void (*exit)(int) __attribute__((noreturn));
    pid_t (*wait)(int *);
    pid_t (*waitpid)(pid_t, int *, int);
    pid_t (*wait3)(int *, int, struct rusage *);
    pid_t (*wait4)(pid_t, int *, int, struct rusage *);
    int (*waitid)(idtype_t, id_t, siginfo_t *, int);
} real_waits;

static _Atomic(Process *) present_one;

void find_waits(void)
{
    *(void **)&real_waits.kill = below("kill");
    *(void **)&real_waits.exit = below("_exit");
    *(void **)&real_waits.wait = below("wait");
    *(void **)&real_waits.waitpid = below("waitpid");
    *(void **)&real_waits.wait3 = below("wait3");
    *(void **)&real_waits.wait4 = below("wait4");
    *(void **)&real_waits.waitid = below("waitid");
}

Process *present_process(void) { return atomic_load_explicit(&present_one, memory_order_relaxed); }

void forget_process(void) { atomic_store(&present_one, NULL); }

/* The namespace of this process's numbers; 0 if it isn't known. */
static uint64_t space_of_numbers(void)
{
    struct stat space;

    return stat("/proc/self/ns/pid", &space) == 0 ? space.st_ino : 0;
}

/* What is mapped now, so that the names of addresses are known when the process is gone. */
static void keep_maps(Process *of)
{
    size_t room;
    char *text = text_of_maps(&room);
    size_t size = text == NULL ? 0 : strlen(text) + 1;
    char *kept = text == NULL ? NULL : take_of_run(size);

    if (kept != NULL)
        atomic_store(&of->maps, memcpy(kept, text, size));
    if (text != NULL)
        munmap(text, room);
}

/* NULL if what is recorded is in this process's own memory, or there is none. */
Process *the_process(void)
{
    Process *present = present_process(), *made;

    if (present != NULL || (!is_shared_run() && !is_parted_run()))
        return present;
    made = take_of_run(sizeof *made);
    if (made == NULL)
        return NULL;
    made->number = getpid();
    made->parent = getppid();
    made->space = space_of_numbers();
    prctl(PR_GET_NAME, made->name);
    keep_maps(made);
    if (!atomic_compare_exchange_strong(&present_one, &present, made))
        return present;
    made->next = atomic_load(&run->processes);
    while (!atomic_compare_exchange_weak(&run->processes, &made->next, made))
        ;
    return made;
}

/* Another process of that number, whose end nobody has seen. */
static Process *process_of(pid_t number)
{
    const Process *own = present_process();
    Process *found = own == NULL ? NULL : atomic_load(&run->processes);

    while (found != NULL
           && (found == own || found->number != number || found->space != own->space || atomic_load(&found->ended)))
        found = found->next;
    return found;
}

static void stamp_ends(Process *ended)
{
    int number = errno;
    Thread *maker = atomic_exchange(&ended->ended, true) ? NULL : this_thread();

    for (Thread *thread = atomic_load(&run->threads); maker != NULL && thread != NULL; thread = thread->next)
        if (thread->process == ended && !atomic_load(&thread->joined))
            note_thread(maker, THREAD_ENDED, thread);
    errno = number;
}

void end_older(void)
{
    Process *own = present_process(), *older;

    while (own != NULL && (older = process_of(own->number)) != NULL)
        stamp_ends(older);
}

/* The flags of a thread, as Linux shows them; exiting, if it shows none. */
static unsigned long flags_in(const char *stat)
{
    const char *at = strrchr(stat, ')'); /* behind its name */

    if (at == NULL || at[1] != ' ' || at[2] == 'Z' || at[2] == 'X')
        return IS_EXITING;
    at++;
    for (int i = 0; i < FIELDS_BEFORE_FLAGS; i++)
        if ((at = strchr(at + 1, ' ')) == NULL)
            return IS_EXITING;
    return strtoul(at, NULL, 10);
}

static bool is_alive(const Thread *thread)
{
    char path[MOST_OF_PATH] = "/proc/", room[MOST_DIGITS + 1], stat[MOST_OF_STAT];

    strcat(path, digits_of((uint64_t)(thread->process == NULL ? getpid() : thread->process->number), 10, room));
    strcat(path, "/task/");
    strcat(path, digits_of((uint64_t)thread->number_of_kernel, 10, room));
    strcat(path, "/stat");
    int file = open(path, O_RDONLY | O_CLOEXEC);
    if (file < 0)
        return false;
    ssize_t size = read(file, stat, sizeof stat - 1);
    close(file);
    stat[size > 0 ? size : 0] = '\0';
    return (flags_in(stat) & IS_EXITING) == 0;
}

/* Of what has ended in view nothing is asked: Linux may have given its number to another thread. */
static bool may_be_alive(const Thread *thread)
{
    return atomic_load(&thread->started) && !atomic_load(&thread->joined)
           && atomic_load(&thread->rounds) < PTHREAD_DESTRUCTOR_ITERATIONS;
}

/* The stamp comes before the looks. NULL: there was no room for it. */
static Record *stamp_end(Process *ended, Record *own)
{
    Thread *maker = this_or_no_thread();
    Record *record = maker == NULL ? NULL : is_parted_run() ? own : new_record(maker, PROCESS_ENDS);

    if (record == NULL)
        return NULL;
    record->thread = maker;
    record->what = PROCESS_ENDS;
    record->process = ended;
    stamp_begin(record);
    record->stamp = atomic_load(&record->begin_place);
    for (Thread *thread = atomic_load(&run->threads); thread != NULL; thread = thread->next)
        if (thread->process == ended && may_be_alive(thread) && is_alive(thread))
            atomic_store(&thread->alive_place, record->stamp);
    return record;
}

/* Whether it is sure is known of a process that ends itself. */
static Record *note_process_end(Process *ended, Record *own, bool is_sure)
{
    int number = errno;
    Record *record = stamp_end(ended, own);

    if (record != NULL)
        atomic_store(&record->is_sure, is_sure);
    errno = number;
    return record;
}

/* Names are those at the end, as far as that is seen. */
static void keep_names(Process *own)
{
    keep_maps(own);
    for (Thread *thread = atomic_load(&run->threads); thread != NULL; thread = thread->next)
        if (thread->process == own && thread->name[0] == '\0')
            read_name(thread);
}

/* Not by a child of vfork, which has its parent's memory. */
void end_process(void)
{
    Process *own = present_process();
    Record record = {.named = NULL};

    if (own != NULL && own->number != getpid())
        return;
    if (own != NULL)
        keep_names(own);
    if ((own != NULL || !is_shared_run()) && lost_place() == UINT64_MAX)
        note_process_end(own, &record, true);
}

int kill(pid_t number, int signal)
{
    be_ready();
    Process *victim = signal == SIGKILL || signal == SIGTERM ? process_of(number) : NULL;
    Record *noted = victim == NULL ? NULL : note_process_end(victim, NULL, false);
    int answer = real_waits.kill(number, signal);
    if (noted != NULL && answer == 0 && signal == SIGKILL)
        atomic_store(&noted->is_sure, true);
    return answer;
}

void _exit(int status)
{
    be_ready();
    end_of_program();
    real_waits.exit(status);
}

void _Exit(int status) { _exit(status); }

static void note_end(pid_t number)
{
    Process *ended = number > 0 ? process_of(number) : NULL;

    if (ended != NULL && ended->parent == getpid())
        stamp_ends(ended);
}

/* Gives on what a wait answered. */
static pid_t note_status(pid_t number, int status, int *wanted)
{
    if (number > 0 && wanted != NULL)
        *wanted = status;
    if (number > 0 && (WIFEXITED(status) || WIFSIGNALED(status)))
        note_end(number);
    return number;
}

pid_t wait(int *status)
{
    int present = 0;

    be_ready();
    pid_t number = real_waits.wait(&present);
    return note_status(number, present, status);
}

pid_t waitpid(pid_t of, int *status, int options)
{
    int present = 0;

    be_ready();
    pid_t number = real_waits.waitpid(of, &present, options);
    return note_status(number, present, status);
}

pid_t wait3(int *status, int options, struct rusage *usage)
{
    int present = 0;

    be_ready();
    pid_t number = real_waits.wait3(&present, options, usage);
    return note_status(number, present, status);
}

pid_t wait4(pid_t of, int *status, int options, struct rusage *usage)
{
    int present = 0;

    be_ready();
    pid_t number = real_waits.wait4(of, &present, options, usage);
    return note_status(number, present, status);
}

int waitid(idtype_t kind, id_t of, siginfo_t *wanted, int options)
{
    siginfo_t own = {.si_pid = 0};
    siginfo_t *told = wanted != NULL ? wanted : &own;

    be_ready();
    int answer = real_waits.waitid(kind, of, told, options);
    bool is_end = told->si_code == CLD_EXITED || told->si_code == CLD_KILLED || told->si_code == CLD_DUMPED;
    if (answer == 0 && is_end)
        note_end(told->si_pid);
    return answer;
}
