/* features NAME: does one thing that the recorder has to get right. */
#include <errno.h>
#include <fcntl.h>
#include <stdarg.h>
#include <stdio.h>
#include <stdlib.h>
#include <string.h>
#include <sys/syscall.h>
#include <unistd.h>

#include "features.h"

time_t skipped_seconds;
long step_of_clock;
bool hides_maps;

static const Feature *const all[] = {mutex_features,      variable_features, thread_features,  left_out_features,
                                     end_features,        handler_features,  difference_features, passed_features,
                                     process_features,    part_features};

/* Stands before the library's in the recorder's eyes. */
int clock_gettime(clockid_t clock, struct timespec *time)
{
    static long passed;

    if (step_of_clock != 0) {
        *time = (struct timespec){1, passed += step_of_clock};
        return 0;
    }
    int answer = (int)syscall(SYS_clock_gettime, clock, time);
    if (answer == 0 && clock == CLOCK_MONOTONIC)
        time->tv_sec += skipped_seconds;
    return answer;
}

/* So does this. */
int open(const char *file, int way, ...)
{
    va_list more;

    va_start(more, way);
    int rights = (way & O_CREAT) != 0 ? va_arg(more, int) : 0;
    va_end(more);
    if (hides_maps && strcmp(file, "/proc/self/maps") == 0) {
        errno = EACCES;
        return -1;
    }
    return (int)syscall(SYS_openat, AT_FDCWD, file, way, rights);
}

void make_mutex(pthread_mutex_t *mutex, int type, bool is_robust, int protocol)
{
    pthread_mutexattr_t attributes;

    pthread_mutexattr_init(&attributes);
    pthread_mutexattr_settype(&attributes, type);
    pthread_mutexattr_setrobust(&attributes, is_robust ? PTHREAD_MUTEX_ROBUST : PTHREAD_MUTEX_STALLED);
    pthread_mutexattr_setprotocol(&attributes, protocol);
    pthread_mutex_init(mutex, &attributes);
    pthread_mutexattr_destroy(&attributes);
}

void make_inheriting(pthread_mutex_t *mutex) { make_mutex(mutex, PTHREAD_MUTEX_NORMAL, false, PTHREAD_PRIO_INHERIT); }

void lock_and_unlock(pthread_mutex_t *mutex)
{
    pthread_mutex_lock(mutex);
    pthread_mutex_unlock(mutex);
}

pthread_t start(void *(*body)(void *), void *argument)
{
    pthread_t thread;

    if (pthread_create(&thread, NULL, body, argument) != 0)
        abort();
    return thread;
}

void run_to_end(void *(*body)(void *), void *argument) { pthread_join(start(body, argument), NULL); }

struct timespec after(clockid_t clock, long milliseconds)
{
    struct timespec time;

    clock_gettime(clock, &time);
    time.tv_sec += milliseconds / 1000;
    time.tv_nsec += milliseconds % 1000 * 1000000;
    if (time.tv_nsec >= 1000000000) {
        time.tv_sec++;
        time.tv_nsec -= 1000000000;
    }
    return time;
}

void sleep_ms(long milliseconds)
{
    struct timespec time = {milliseconds / 1000, milliseconds % 1000 * 1000000};

    nanosleep(&time, NULL);
}

static FILE *open_call(pid_t thread)
{
    char path[64];

    snprintf(path, sizeof path, "/proc/self/task/%d/syscall", (int)thread);
    return fopen(path, "r");
}

void until_in(pid_t thread, long wanted)
{
    long call = -1;

    while (call != wanted) {
        sleep_ms(1);
        FILE *file = open_call(thread);
        if (file == NULL)
            abort();
        if (fscanf(file, "%ld", &call) != 1)
            call = -1;
        fclose(file);
    }
}

void until_blocked(pid_t thread) { until_in(thread, SYS_futex); }

void until_gone(pid_t thread)
{
    FILE *file;

    while ((file = open_call(thread)) != NULL) {
        fclose(file);
        sleep_ms(1);
    }
}

void until(sem_t *semaphore)
{
    while (sem_wait(semaphore) != 0)
        ;
}

static const Feature *find(const char *name)
{
    for (size_t i = 0; i < sizeof all / sizeof *all; i++)
        for (const Feature *feature = all[i]; feature->name != NULL; feature++)
            if (strcmp(feature->name, name) == 0)
                return feature;
    return NULL;
}

int main(int count, char **words)
{
    const Feature *feature = count == 2 ? find(words[1]) : NULL;

    if (feature != NULL) {
        feature->run();
        return 0;
    }
    printf("features NAME, where NAME is one of\n");
    for (size_t i = 0; i < sizeof all / sizeof *all; i++)
        for (const Feature *each = all[i]; each->name != NULL; each++)
            printf("  %-18s %s\n", each->name, each->what);
    return 1;
}
