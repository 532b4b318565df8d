/* features NAME: does one thing that the library has to get right, or to refuse. */
#include <stdio.h>
#include <stdlib.h>
#include <string.h>

#include "features.h"

enum { WRONG_WORDS = 2, DOES_NOT_HOLD = 3 };

static const Feature *const all[] = {
    lock_features, wait_features, kernel_features, memory_features, handler_features, ended_features,
};

void check(bool holds, const char *condition, const char *file, int line)
{
    if (holds)
        return;
    fprintf(stderr, "%s:%d: %s doesn't hold\n", file, line, condition);
    exit(DOES_NOT_HOLD);
}

pthread_t start(void *(*body)(void *), void *argument)
{
    pthread_t thread;

    CHECK(pthread_create(&thread, NULL, body, argument) == 0);
    return thread;
}

void run_two(void *(*one)(void *), void *(*other)(void *))
{
    pthread_t first = start(one, NULL), second = start(other, NULL);

    CHECK(pthread_join(first, NULL) == 0);
    CHECK(pthread_join(second, NULL) == 0);
}

void make_mutex(pthread_mutex_t *mutex, int type, bool is_robust)
{
    pthread_mutexattr_t attributes;

    pthread_mutexattr_init(&attributes);
    pthread_mutexattr_settype(&attributes, type);
    pthread_mutexattr_setrobust(&attributes, is_robust ? PTHREAD_MUTEX_ROBUST : PTHREAD_MUTEX_STALLED);
    pthread_mutexattr_setprotocol(&attributes, PTHREAD_PRIO_INHERIT);
    CHECK(pthread_mutex_init(mutex, &attributes) == 0);
    pthread_mutexattr_destroy(&attributes);
}

struct timespec after(clockid_t clock, long milliseconds)
{
    struct timespec time;

    clock_gettime(clock, &time);
    time.tv_sec += milliseconds / 1000;
    time.tv_nsec += milliseconds % 1000 * 1000000;
    time.tv_sec += time.tv_nsec / 1000000000;
    time.tv_nsec %= 1000000000;
    return time;
}

bool is_before(struct timespec left, struct timespec right)
{
    return left.tv_sec < right.tv_sec || (left.tv_sec == right.tv_sec && left.tv_nsec < right.tv_nsec);
}

int main(int count, char **words)
{
    for (size_t group = 0; group < sizeof all / sizeof *all; group++)
        for (const Feature *feature = all[group]; feature->name != NULL; feature++) {
            if (count == 1)
                puts(feature->name);
            if (count == 2 && strcmp(words[1], feature->name) == 0) {
                feature->run();
                return 0;
            }
        }
    return count == 1 ? 0 : WRONG_WORDS;
}
