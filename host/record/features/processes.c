/* Processes that share mutexes and condition variables, for a recording that they share. */
#include <fcntl.h>
#include <signal.h>
#include <stdio.h>
#include <stdlib.h>
#include <sys/mman.h>
#include <sys/syscall.h>
#include <sys/wait.h>
#include <unistd.h>

#include "features.h"

/* What is shared, and semaphores for the turns. */
typedef struct {
    pthread_mutex_t robust, second, plain;
    pthread_cond_t variable;
    sem_t is_held;
} Shared;

static pthread_mutex_t own;

static void make_shared_mutex(pthread_mutex_t *mutex, bool is_robust)
{
    pthread_mutexattr_t attributes;

    pthread_mutexattr_init(&attributes);
    pthread_mutexattr_setprotocol(&attributes, PTHREAD_PRIO_INHERIT);
    pthread_mutexattr_setpshared(&attributes, PTHREAD_PROCESS_SHARED);
    pthread_mutexattr_setrobust(&attributes, is_robust ? PTHREAD_MUTEX_ROBUST : PTHREAD_MUTEX_STALLED);
    pthread_mutex_init(mutex, &attributes);
}

static Shared *map_shared(int file)
{
    int way = file < 0 ? MAP_SHARED | MAP_ANONYMOUS : MAP_SHARED;
    void *mapped = mmap(NULL, sizeof(Shared), PROT_READ | PROT_WRITE, way, file, 0);

    if (mapped == MAP_FAILED)
        abort();
    return mapped;
}

static void make_all(Shared *shared)
{
    pthread_condattr_t attributes;

    make_shared_mutex(&shared->robust, true);
    make_shared_mutex(&shared->second, true);
    make_shared_mutex(&shared->plain, false);
    pthread_condattr_init(&attributes);
    pthread_condattr_setpshared(&attributes, PTHREAD_PROCESS_SHARED);
    pthread_cond_init(&shared->variable, &attributes);
    sem_init(&shared->is_held, 1, 0);
}

static pid_t start_child(void (*body)(Shared *), Shared *shared)
{
    pid_t child = fork();

    if (child == 0) {
        body(shared);
        exit(0);
    }
    return child;
}

static void hold_robust(Shared *shared)
{
    pthread_mutex_lock(&shared->robust);
    sem_post(&shared->is_held);
    for (;;)
        pause();
}

static void recover_one(pthread_mutex_t *mutex)
{
    pthread_mutex_lock(mutex);
    pthread_mutex_consistent(mutex);
    pthread_mutex_unlock(mutex);
}

/* Takes what the dead had, and makes it consistent. */
static void recover(Shared *shared) { recover_one(&shared->robust); }

static void one_is_killed(void)
{
    Shared *shared = map_shared(-1);

    make_all(shared);
    pid_t child = start_child(hold_robust, shared);
    until(&shared->is_held);
    pthread_mutex_trylock(&shared->robust);
    kill(child, SIGKILL);
    waitpid(child, NULL, 0);
    recover(shared);
}

static void wait_for_plain(Shared *shared)
{
    sem_post(&shared->is_held);
    pthread_mutex_lock(&shared->plain);
}

/* In a futex call. */
static void until_process_blocks(pid_t process)
{
    char path[64];
    long call = -1;

    snprintf(path, sizeof path, "/proc/%d/syscall", (int)process);
    while (call != SYS_futex) {
        FILE *file = fopen(path, "r");
        if (file == NULL || fscanf(file, "%ld", &call) != 1)
            call = -1;
        if (file != NULL)
            fclose(file);
        sleep_ms(1);
    }
}

static void killed_in_a_lock(void)
{
    Shared *shared = map_shared(-1);

    make_all(shared);
    pthread_mutex_lock(&shared->plain);
    pid_t child = start_child(wait_for_plain, shared);
    until(&shared->is_held);
    until_process_blocks(child);
    kill(child, SIGKILL);
    waitpid(child, NULL, 0);
    pthread_mutex_unlock(&shared->plain);
    lock_and_unlock(&shared->plain);
}

static void *end_with_second(void *shared)
{
    pthread_mutex_lock(&((Shared *)shared)->second);
    return NULL;
}

static void *wait_in_thread(void *shared)
{
    wait_for_plain(shared);
    return NULL;
}

static void hold_with_threads(Shared *shared)
{
    run_to_end(end_with_second, shared);
    pthread_mutex_lock(&shared->robust);
    pthread_join(start(wait_in_thread, shared), NULL);
}

/* One thread has a robust mutex, one waits, and one has ended with a robust mutex. */
static void threads_are_killed(void)
{
    Shared *shared = map_shared(-1);

    make_all(shared);
    pthread_mutex_lock(&shared->plain);
    pid_t child = start_child(hold_with_threads, shared);
    until(&shared->is_held);
    sleep_ms(SHORT_MS);
    kill(child, SIGKILL);
    waitpid(child, NULL, 0);
    recover(shared);
    recover_one(&shared->second);
    pthread_mutex_unlock(&shared->plain);
}

static void *use_plain_and_stay(void *shared)
{
    lock_and_unlock(&((Shared *)shared)->plain);
    sem_post(&((Shared *)shared)->is_held);
    for (;;)
        pause();
    return NULL;
}

static void hold_and_let_another_go(Shared *shared)
{
    pthread_mutex_lock(&shared->robust);
    pthread_join(start(use_plain_and_stay, shared), NULL);
}

/* By who isn't seen: each thread was alive at its last line. */
static void killed_unseen(void)
{
    Shared *shared = map_shared(-1);

    make_all(shared);
    pid_t child = start_child(hold_and_let_another_go, shared);
    until(&shared->is_held);
    syscall(SYS_kill, child, SIGKILL);
    waitpid(child, NULL, 0);
    recover(shared);
}

static void leave_by_signal(Shared *shared)
{
    pthread_mutex_lock(&shared->robust);
    raise(SIGTERM);
}

static void leave_at_once(Shared *shared)
{
    pthread_mutex_lock(&shared->robust);
    _exit(0);
}

/* Nobody who is recorded sees how it ends, but itself. */
static void ends_by_itself(void)
{
    Shared *shared = map_shared(-1);

    make_all(shared);
    waitpid(start_child(leave_by_signal, shared), NULL, 0);
    recover(shared);
    waitpid(start_child(leave_at_once, shared), NULL, 0);
    recover(shared);
}

static void hold_to_exit(Shared *shared) { pthread_mutex_lock(&shared->robust); }

static void one_exits(void)
{
    Shared *shared = map_shared(-1);
    siginfo_t ended;

    make_all(shared);
    pid_t child = start_child(hold_to_exit, shared);
    waitid(P_PID, (id_t)child, &ended, WEXITED);
    recover(shared);
}

static void end_unseen(void)
{
    Shared *shared = map_shared(-1);

    signal(SIGCHLD, SIG_IGN);
    make_all(shared);
    pid_t child = start_child(hold_to_exit, shared);
    while (kill(child, 0) == 0)
        sleep_ms(1);
    recover(shared);
}

static void wait_for_signal(Shared *shared)
{
    pthread_mutex_lock(&shared->plain);
    sem_post(&shared->is_held);
    pthread_cond_wait(&shared->variable, &shared->plain);
    pthread_mutex_unlock(&shared->plain);
}

static void variable_of_two(void)
{
    Shared *shared = map_shared(-1);

    make_all(shared);
    pid_t child = start_child(wait_for_signal, shared);
    until(&shared->is_held);
    pthread_mutex_lock(&shared->plain);
    pthread_cond_signal(&shared->variable);
    pthread_mutex_unlock(&shared->plain);
    waitpid(child, NULL, 0);
}

static int open_shared(int more)
{
    const char *name = getenv("SHARED_MEMORY");
    int file = name == NULL ? -1 : open(name, O_RDWR | more, 0666);

    if (file < 0 || ftruncate(file, sizeof(Shared)) != 0)
        abort();
    return file;
}

/* Another program, which maps the file somewhere else. */
static void other_program(void)
{
    map_shared(-1);
    hold_robust(map_shared(open_shared(0)));
}

static void run_instead(char *name)
{
    char path[4096], *const words[] = {path, name, NULL};
    ssize_t length = readlink("/proc/self/exe", path, sizeof path - 1);

    path[length < 0 ? 0 : length] = '\0';
    execv(path, words);
    abort();
}

static void run_other(Shared *unused)
{
    (void)unused;
    run_instead("other_program");
}

static void by_name(void)
{
    Shared *shared = map_shared(open_shared(O_CREAT));

    make_all(shared);
    pid_t child = start_child(run_other, shared);
    until(&shared->is_held);
    pthread_mutex_trylock(&shared->robust);
    kill(child, SIGKILL);
    waitpid(child, NULL, 0);
    recover(shared);
}

static void recovers(void) { recover(map_shared(open_shared(0))); }

static void hold_and_run_other(Shared *shared)
{
    pthread_mutex_lock(&shared->robust);
    run_instead("recovers");
}

/* The program that a process ran before has ended, too. */
static void replaced(void)
{
    Shared *shared = map_shared(open_shared(O_CREAT));

    make_all(shared);
    waitpid(start_child(hold_and_run_other, shared), NULL, 0);
}

static void use_own(Shared *unused)
{
    (void)unused;
    lock_and_unlock(&own);
}

/* A mutex that isn't shared: the child's copy is another one. */
static void copy_in_child(void)
{
    make_inheriting(&own);
    lock_and_unlock(&own);
    waitpid(start_child(use_own, NULL), NULL, 0);
    lock_and_unlock(&own);
}

static void try_own(Shared *unused)
{
    (void)unused;
    pthread_mutex_trylock(&own);
}

static void held_at_fork(void)
{
    make_inheriting(&own);
    pthread_mutex_lock(&own);
    waitpid(start_child(try_own, NULL), NULL, 0);
    pthread_mutex_unlock(&own);
}

static int new_memory(void)
{
    int file = memfd_create("shared", MFD_CLOEXEC);

    if (file < 0 || ftruncate(file, sizeof(Shared)) != 0)
        abort();
    return file;
}

/* At the address at which the first memory was stands the second one, too. */
static void mapped_again(void)
{
    int first_file = new_memory(), second_file = new_memory();
    Shared *first = map_shared(first_file), *second = map_shared(second_file);

    make_all(first);
    make_all(second);
    lock_and_unlock(&first->plain);
    munmap(first, sizeof *first);
    if (mmap(first, sizeof *first, PROT_READ | PROT_WRITE, MAP_SHARED, second_file, 0) != first)
        abort();
    pthread_mutex_lock(&first->plain);
    pthread_mutex_unlock(&second->plain);
}

/* A mutex that a program made which isn't recorded. */
static void made_by_another(void)
{
    Shared *shared = map_shared(open_shared(0));

    make_inheriting(&own);
    lock_and_unlock(&own);
    lock_and_unlock(&shared->plain);
}

static void make_for_another(void) { make_all(map_shared(open_shared(O_CREAT))); }

static void hidden_memory(void)
{
    Shared *shared = map_shared(-1);

    make_inheriting(&own);
    lock_and_unlock(&own);
    hides_maps = true;
    make_all(shared);
    lock_and_unlock(&shared->plain);
    hides_maps = false;
}

const Feature process_features[] = {
    {"one_is_killed", "two processes, one of which is killed with a robust mutex", one_is_killed},
    {"killed_in_a_lock", "likewise, while it waits for a mutex", killed_in_a_lock},
    {"threads_are_killed", "likewise, with threads that wait, hold a robust mutex or have ended with one", threads_are_killed},
    {"killed_unseen", "a process that is killed by the bare call", killed_unseen},
    {"ends_by_itself", "processes that end by a signal and by _exit, each with a robust mutex", ends_by_itself},
    {"one_exits", "a process that ends with a robust mutex", one_exits},
    {"end_unseen", "the same, and nobody waits for it", end_unseen},
    {"variable_of_two", "a condition variable of two processes", variable_of_two},
    {"by_name", "another program that maps the same file, at another address", by_name},
    {"other_program", "which that is", other_program},
    {"replaced", "a process that goes on as another program, while it has a robust mutex", replaced},
    {"recovers", "which that is", recovers},
    {"copy_in_child", "a mutex that isn't shared, and a fork", copy_in_child},
    {"held_at_fork", "the same, while it is held", held_at_fork},
    {"mapped_again", "other memory at the same address", mapped_again},
    {"make_for_another", "makes mutexes in a file", make_for_another},
    {"made_by_another", "uses what another program has made", made_by_another},
    {"hidden_memory", "a process that can't see what is mapped", hidden_memory},
    {NULL, NULL, NULL},
};
