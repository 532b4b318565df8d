/* The hammer's calls of mutexes and condition variables of Rust, or of a library. Nothing there can be wrapped, so that
   the hammer notes its calls itself, and writes the history to RECORD_FILE. */
#include <dlfcn.h>
#include <limits.h>
#include <signal.h>
#include <stdio.h>
#include <stdlib.h>
#include <string.h>
#include <sys/wait.h>
#include <time.h>
#include <unistd.h>

#include "hammer.h"

static unsigned microseconds(void);
static atomic_ulong places;

#define PIF_COUNTER() (atomic_fetch_add(&places, 1) + 1)
#define PIF_CLOCK() (microseconds() + 1)
#define PIF_RECORD_LINES (1u << 20)
#define PIF_RECORD_HERE
#include "pif_record.h"

enum { PRIORITY = 1 }; /* of all: none of these mutexes knows of any */

static struct timespec start;
static Calls library;
static _Thread_local unsigned self;
static FILE *file;

/* Whole ones since the start. */
static unsigned microseconds(void)
{
    struct timespec now;

    clock_gettime(CLOCK_MONOTONIC, &now);
    return (unsigned)(((now.tv_sec - start.tv_sec) * 1000000000L + now.tv_nsec - start.tv_nsec) / 1000);
}

void name_thread(unsigned number) { self = number; }

static int answered(int answer)
{
    PIF_ANSWER(self, answer);
    return answer;
}

static int lock(unsigned mutex)
{
    PIF_BEGIN(self, "lock m%u", mutex + 1);
    return answered(library.lock(mutex));
}

static int trylock(unsigned mutex)
{
    PIF_BEGIN(self, "trylock m%u", mutex + 1);
    return answered(library.trylock(mutex));
}

static int timedlock(unsigned mutex, unsigned time)
{
    PIF_BEGIN(self, "timedlock m%u %u", mutex + 1, microseconds() + time);
    return answered(library.timedlock(mutex, time));
}

static int unlock(unsigned mutex)
{
    PIF_BEGIN(self, "unlock m%u", mutex + 1);
    return answered(library.unlock(mutex));
}

static int wait_on(unsigned variable, unsigned mutex)
{
    PIF_BEGIN(self, "wait c%u m%u", variable + 1, mutex + 1);
    return answered(library.wait(variable, mutex));
}

static int timedwait(unsigned variable, unsigned mutex, unsigned time)
{
    PIF_BEGIN(self, "timedwait c%u m%u %u", variable + 1, mutex + 1, microseconds() + time);
    return answered(library.timedwait(variable, mutex, time));
}

static int signal_one(unsigned variable)
{
    PIF_BEGIN(self, "signal c%u", variable + 1);
    return answered(library.signal(variable));
}

static int broadcast(unsigned variable)
{
    PIF_BEGIN(self, "broadcast c%u", variable + 1);
    return answered(library.broadcast(variable));
}

static Calls noted = {lock, trylock, timedlock, unlock, wait_on, timedwait, signal_one, broadcast};

/* The recorder of programs would write a history of its own. */
static void run_without_recorder(char **words)
{
    if (getenv("LD_PRELOAD") == NULL)
        return;
    unsetenv("LD_PRELOAD");
    execv("/proc/self/exe", words);
}

/* The file of Rust's library of this name, built if it isn't there. Whether it is. */
static bool build_rust(const char *name, char *file, size_t size)
{
    char folder[PATH_MAX], text[2 * PATH_MAX];
    ssize_t length = readlink("/proc/self/exe", folder, sizeof folder - 1);

    if (length <= 0)
        return false;
    folder[length] = '\0';
    *strrchr(folder, '/') = '\0';
    snprintf(text, sizeof text, "'%s/rust/build' %s", folder, name);
    snprintf(file, size, "%s/out/%s.so", folder, name);
    return system(text) == 0;
}

static void add_all(void)
{
    for (unsigned i = 0; i <= orders.threads; i++)
        PIF_ADD("thread %u", (unsigned)PRIORITY);
    for (unsigned i = 0; i < orders.mutexes; i++)
        PIF_ADD(orders.recursive ? "mutex recursive" : "mutex normal");
    for (unsigned i = 0; i < orders.variables; i++)
        PIF_ADD("cond m%u", i % orders.mutexes + 1);
}

/* A run that hangs has a history, too. */
static void hung(int number)
{
    (void)number;
    write_history();
    _exit(STATUS_HUNG);
}

/* A library has a function `calls`, and a variable `is_recursive` if its mutexes are. */
bool use_library(const char *file, char **words)
{
    run_without_recorder(words);
    void *found = dlopen(file, RTLD_NOW);
    void *find = found == NULL ? NULL : dlsym(found, "calls");

    if (find == NULL) {
        fprintf(stderr, "hammer: %s\n", dlerror());
        return false;
    }
    ((void (*)(Calls *))find)(&library);
    orders.recursive = dlsym(found, "is_recursive") != NULL;
    if (library.timedlock == NULL)
        noted.timedlock = NULL;
    calls = &noted;
    signal(SIGALRM, hung);
    clock_gettime(CLOCK_MONOTONIC, &start);
    name_thread(orders.threads + 1);
    add_all();
    return true;
}

bool use_rust(const char *name, char **words)
{
    char built[3 * PATH_MAX];

    return build_rust(name, built, sizeof built) && use_library(built, words);
}

static void put(char character) { putc(character, file); }

bool write_history(void)
{
    const char *name = getenv("RECORD_FILE");

    if (calls != &noted || name == NULL)
        return true;
    file = fopen(name, "w");
    if (file == NULL || pif_dump(put) > 0 || fclose(file) != 0) {
        fprintf(stderr, "hammer: %s can't be written whole\n", name);
        return false;
    }
    return true;
}
