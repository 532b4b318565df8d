/* each_instruction: ends a thread after each instruction of one call of glibc, and asks the next one that locks.

   The mutex is robust and inherits priorities, and lies in memory that processes share. A child makes the call, one
   instruction at a time (ptrace), and is ended after k of them, for every k. Then another one locks. */
#include <errno.h>
#include <gnu/libc-version.h>
#include <pthread.h>
#include <signal.h>
#include <stdbool.h>
#include <stdio.h>
#include <stdlib.h>
#include <string.h>
#include <sys/mman.h>
#include <sys/ptrace.h>
#include <sys/user.h>
#include <sys/utsname.h>
#include <sys/wait.h>
#include <unistd.h>

enum { DONE, WRONG_WORDS, FAILED = 6, CANNOT_ASK, MOST_INSTRUCTIONS = 5000, TRAP_BYTE = 0xcc, ABORTED = -1 };

typedef enum { FINE, INCONSISTENT, UNUSABLE } Health;

typedef int (*Call)(pthread_mutex_t *);

typedef struct {
    const char *name;
    Call call;
    Health health;
    bool held; /* by the thread that makes the call, and that is ended */
} Scene;

/* What the next thread that locks is answered, and what it is answered then. */
typedef struct {
    int lock, consistent, unlock, again;
} Answers;

typedef struct {
    pthread_mutex_t mutex;
    Answers answers;
} Shared;

static Shared *shared;

static const char *const healths[] = {"fine", "inconsistent", "unusable"};

static void fail(const char *why)
{
    fprintf(stderr, "each_instruction: %s: %s\n", why, strerror(errno));
    exit(FAILED);
}

static pid_t split(void)
{
    fflush(NULL);
    pid_t child = fork();

    if (child < 0)
        fail("a process can't be started");
    return child;
}

static int wait_for(pid_t child)
{
    int status;

    while (waitpid(child, &status, 0) < 0)
        if (errno != EINTR)
            fail("a process can't be waited for");
    return status;
}

static void make_mutex(void)
{
    pthread_mutexattr_t attributes;

    memset(shared, 0, sizeof *shared);
    if (pthread_mutexattr_init(&attributes) != 0 ||
        pthread_mutexattr_setpshared(&attributes, PTHREAD_PROCESS_SHARED) != 0 ||
        pthread_mutexattr_setprotocol(&attributes, PTHREAD_PRIO_INHERIT) != 0 ||
        pthread_mutexattr_setrobust(&attributes, PTHREAD_MUTEX_ROBUST) != 0 ||
        pthread_mutex_init(&shared->mutex, &attributes) != 0)
        fail("the mutex can't be made");
    pthread_mutexattr_destroy(&attributes);
}

/* Lets a process lock, unlock if that is asked, and end. */
static void lock_and_end(bool unlock)
{
    pid_t child = split();

    if (child == 0) {
        pthread_mutex_lock(&shared->mutex);
        if (unlock)
            pthread_mutex_unlock(&shared->mutex);
        _exit(0);
    }
    wait_for(child);
}

static void prepare(Health health)
{
    make_mutex();
    if (health != FINE)
        lock_and_end(false);
    if (health == UNUSABLE)
        lock_and_end(true);
}

/* The thread that is ended: between two traps it makes the call. */
static void make_call(const Scene *scene)
{
    if (ptrace(PTRACE_TRACEME, 0, NULL, NULL) != 0)
        _exit(CANNOT_ASK);
    if (scene->held)
        pthread_mutex_lock(&shared->mutex);
    __asm__ volatile("int3" ::: "memory");
    int answer = scene->call(&shared->mutex);
    __asm__ volatile("int3" ::: "memory");
    _exit(answer == 0 ? 0 : 1);
}

static bool is_at_trap(pid_t child)
{
    struct user_regs_struct registers;

    if (ptrace(PTRACE_GETREGS, child, NULL, &registers) != 0)
        fail("the registers can't be read");
    errno = 0;
    long word = ptrace(PTRACE_PEEKTEXT, child, (void *)registers.rip, NULL);
    if (errno != 0)
        fail("the instruction can't be read");
    return (word & 0xff) == TRAP_BYTE;
}

/* Makes the call up to `count` instructions and ends it; the answer is how many there were. */
static int step(const Scene *scene, int count)
{
    pid_t child = split();

    if (child == 0)
        make_call(scene);
    int status = wait_for(child);
    if (WIFEXITED(status) && WEXITSTATUS(status) == CANNOT_ASK) {
        fputs("each_instruction: this machine can't be asked: no right to ptrace\n", stderr);
        exit(CANNOT_ASK);
    }
    int made = 0;
    while (made < count && !is_at_trap(child)) {
        if (ptrace(PTRACE_SINGLESTEP, child, NULL, NULL) != 0)
            fail("an instruction can't be made");
        status = wait_for(child);
        if (!WIFSTOPPED(status) || WSTOPSIG(status) != SIGTRAP)
            fail("the call ended otherwise");
        made++;
    }
    kill(child, SIGKILL);
    while (WIFSTOPPED(wait_for(child)))
        ;
    return made;
}

/* The next thread that locks; if it is told that the last owner ended it repairs, unlocks and locks again. */
static void ask_next(void)
{
    Answers *answers = &shared->answers;

    answers->lock = ABORTED;
    pid_t child = split();
    if (child == 0) {
        fclose(stderr);
        answers->lock = pthread_mutex_lock(&shared->mutex);
        if (answers->lock == EOWNERDEAD) {
            answers->consistent = pthread_mutex_consistent(&shared->mutex);
            answers->unlock = pthread_mutex_unlock(&shared->mutex);
            answers->again = pthread_mutex_lock(&shared->mutex);
        }
        _exit(0);
    }
    wait_for(child);
}

static Answers answers_after(const Scene *scene, int count)
{
    prepare(scene->health);
    step(scene, count);
    ask_next();
    return shared->answers;
}

static void print_range(const Scene *scene, int first, int last, Answers answers)
{
    char range[32], next[96];

    snprintf(range, sizeof range, first == last ? "%d" : "%d to %d", first, last);
    if (answers.lock == ABORTED)
        snprintf(next, sizeof next, "aborts");
    else if (answers.lock == EOWNERDEAD)
        snprintf(next, sizeof next, "%d; consistent %d, unlock %d, lock %d", answers.lock, answers.consistent,
            answers.unlock, answers.again);
    else
        snprintf(next, sizeof next, "%d", answers.lock);
    printf("%-11s %-13s %-14s %s\n", scene->name, healths[scene->health], range, next);
}

static void run_scene(const Scene *scene)
{
    Answers before = {0};
    int first = 0;

    prepare(scene->health);
    int length = step(scene, MOST_INSTRUCTIONS);
    for (int count = 0; count <= length; count++) {
        Answers now = answers_after(scene, count);

        if (count > 0 && memcmp(&now, &before, sizeof now) != 0) {
            print_range(scene, first, count - 1, before);
            first = count;
        }
        before = now;
    }
    print_range(scene, first, length, before);
}

static int end_of_output(void)
{
    if (fflush(stdout) == 0 && !ferror(stdout))
        return DONE;
    fputs("each_instruction: the output can't be written\n", stderr);
    return FAILED;
}

static int print_help(void)
{
    puts("usage: each_instruction [--help]\n\n"
         "Ends a thread after each instruction of one call of glibc on a robust mutex that inherits priorities, and\n"
         "prints what the next thread that locks is answered. If that is 130 (EOWNERDEAD) it calls consistent, unlock\n"
         "and lock, and their answers stand behind it.\n\n"
         "Statuses: 0 done; 1 wrong words; 6 it failed; 7 this machine can't be asked.");
    return end_of_output();
}

int main(int count, char **words)
{
    static const Scene scenes[] = {
        {"lock", pthread_mutex_lock, FINE, false}, {"lock", pthread_mutex_lock, INCONSISTENT, false},
        {"lock", pthread_mutex_lock, UNUSABLE, false}, {"trylock", pthread_mutex_trylock, FINE, false},
        {"trylock", pthread_mutex_trylock, INCONSISTENT, false}, {"trylock", pthread_mutex_trylock, UNUSABLE, false},
        {"unlock", pthread_mutex_unlock, FINE, true}, {"unlock", pthread_mutex_unlock, INCONSISTENT, true},
        {"unlock", pthread_mutex_unlock, UNUSABLE, false}, {"consistent", pthread_mutex_consistent, FINE, true},
        {"consistent", pthread_mutex_consistent, INCONSISTENT, true},
        {"consistent", pthread_mutex_consistent, UNUSABLE, false},
    };
    struct utsname name;

    if (count == 2 && (strcmp(words[1], "--help") == 0 || strcmp(words[1], "-h") == 0))
        return print_help();
    if (count > 1) {
        fputs("each_instruction: it takes no words but --help\n", stderr);
        return WRONG_WORDS;
    }
    shared = mmap(NULL, sizeof *shared, PROT_READ | PROT_WRITE, MAP_SHARED | MAP_ANONYMOUS, -1, 0);
    if (shared == MAP_FAILED || uname(&name) != 0)
        fail("no shared memory");
    printf("%s %s %s, glibc %s\n\n", name.sysname, name.release, name.machine, gnu_get_libc_version());
    printf("%-11s %-13s %-14s %s\n", "call", "mutex", "ended after", "the next lock");
    for (size_t i = 0; i < sizeof scenes / sizeof *scenes; i++)
        run_scene(&scenes[i]);
    return end_of_output();
}
