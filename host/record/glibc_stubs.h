/* What glibc's tests of mutexes, robust mutexes and condition variables take from glibc's own folders, in short. A test
   that fails says so, and ends with status 1. Written for host/record/glibc_tests. */
#ifndef PIF_GLIBC_STUBS_H
#define PIF_GLIBC_STUBS_H

#include <errno.h>
#include <pthread.h>
#include <stdbool.h>
#include <stdint.h>
#include <stdio.h>
#include <stdlib.h>
#include <sys/mman.h>
#include <sys/wait.h>
#include <time.h>
#include <unistd.h>

#define array_length(items) (sizeof(items) / sizeof((items)[0]))
#define DIAG_PUSH_NEEDS_COMMENT
#define DIAG_POP_NEEDS_COMMENT
#define DIAG_IGNORE_NEEDS_COMMENT(version, option)

enum { STUB_FAILS = 1, STUB_UNSUPPORTED = 77, STUB_SECOND = 1000000000 };

/* glibc's tests go on behind a failure, and the last status says it. */
static int stub_failures __attribute__((unused));

#define STUB_SAY(...) (printf("%s:%d: ", __FILE__, __LINE__), printf(__VA_ARGS__), putchar('\n'))
#define FAIL(...) (stub_failures++, STUB_SAY(__VA_ARGS__), 1)
#define FAIL_RET(...) return FAIL(__VA_ARGS__)
#define FAIL_EXIT1(...) (STUB_SAY(__VA_ARGS__), exit(STUB_FAILS))
#define FAIL_UNSUPPORTED(...) (STUB_SAY(__VA_ARGS__), exit(STUB_UNSUPPORTED))
#define test_verbose 0
#define verbose_printf(...) ((void)0)
#define TEST_VERIFY(is_so) ((is_so) ? 0 : FAIL("not so: %s", #is_so))
#define TEST_VERIFY_EXIT(is_so) ((is_so) ? (void)0 : FAIL_EXIT1("not so: %s", #is_so))
#define TEST_COMPARE(left, right) \
    ({ long long l = (left), r = (right); l == r ? 0 : FAIL("%s is %lld and not %lld", #left, l, r); })
#define TEST_TIMESPEC_BEFORE(left, right) TEST_VERIFY(stub_nanoseconds(left) < stub_nanoseconds(right))
#define TEST_TIMESPEC_BEFORE_NOW(time, clock) TEST_TIMESPEC_BEFORE(time, xclock_now(clock))

#define STUB static __attribute__((unused))

STUB long long stub_nanoseconds(struct timespec time) { return (long long)time.tv_sec * STUB_SECOND + time.tv_nsec; }

STUB struct timespec make_timespec(time_t seconds, long nanoseconds) { return (struct timespec){seconds, nanoseconds}; }

STUB struct timespec timespec_add(struct timespec left, struct timespec right)
{
    long nanoseconds = left.tv_nsec + right.tv_nsec;

    return make_timespec(left.tv_sec + right.tv_sec + nanoseconds / STUB_SECOND, nanoseconds % STUB_SECOND);
}

STUB struct timespec xclock_now(clockid_t clock)
{
    struct timespec time;

    TEST_VERIFY_EXIT(clock_gettime(clock, &time) == 0);
    return time;
}

STUB void xclock_gettime(clockid_t clock, struct timespec *time) { *time = xclock_now(clock); }

#define STUB_DEMAND(call) TEST_VERIFY_EXIT((call) == 0)
#define xpthread_mutex_init(mutex, attributes) STUB_DEMAND(pthread_mutex_init(mutex, attributes))
#define xpthread_mutex_destroy(mutex) STUB_DEMAND(pthread_mutex_destroy(mutex))
#define xpthread_mutex_lock(mutex) STUB_DEMAND(pthread_mutex_lock(mutex))
#define xpthread_mutex_unlock(mutex) STUB_DEMAND(pthread_mutex_unlock(mutex))
#define xpthread_mutex_consistent(mutex) STUB_DEMAND(pthread_mutex_consistent(mutex))
#define xpthread_mutexattr_init(attributes) STUB_DEMAND(pthread_mutexattr_init(attributes))
#define xpthread_mutexattr_destroy(attributes) STUB_DEMAND(pthread_mutexattr_destroy(attributes))
#define xpthread_mutexattr_settype(attributes, type) STUB_DEMAND(pthread_mutexattr_settype(attributes, type))
#define xpthread_mutexattr_setrobust(attributes, robust) STUB_DEMAND(pthread_mutexattr_setrobust(attributes, robust))
#define xpthread_mutexattr_setprotocol(attributes, way) STUB_DEMAND(pthread_mutexattr_setprotocol(attributes, way))
#define xpthread_mutexattr_setpshared(attributes, way) STUB_DEMAND(pthread_mutexattr_setpshared(attributes, way))
#define xpthread_cond_wait(variable, mutex) STUB_DEMAND(pthread_cond_wait(variable, mutex))
#define xpthread_barrier_init(barrier, attributes, count) \
    STUB_DEMAND(pthread_barrier_init(barrier, attributes, count))
#define xpthread_barrier_destroy(barrier) STUB_DEMAND(pthread_barrier_destroy(barrier))

STUB int xpthread_barrier_wait(pthread_barrier_t *barrier)
{
    int answer = pthread_barrier_wait(barrier);

    TEST_VERIFY_EXIT(answer == 0 || answer == PTHREAD_BARRIER_SERIAL_THREAD);
    return answer == PTHREAD_BARRIER_SERIAL_THREAD;
}

STUB pthread_t xpthread_create(pthread_attr_t *attributes, void *(*start)(void *), void *argument)
{
    pthread_t thread;

    STUB_DEMAND(pthread_create(&thread, attributes, start, argument));
    return thread;
}

STUB void *xpthread_join(pthread_t thread)
{
    void *result;

    STUB_DEMAND(pthread_join(thread, &result));
    return result;
}

STUB void *stub_exit_later(void *seconds)
{
    sleep((unsigned)(long)seconds);
    exit(0);
}

STUB void delayed_exit(int seconds) { xpthread_create(NULL, stub_exit_later, (void *)(long)seconds); }

STUB void *xmalloc(size_t size)
{
    void *memory = malloc(size);

    TEST_VERIFY_EXIT(memory != NULL);
    return memory;
}

/* The test has it open. */
STUB void add_temp_file(const char *name) { unlink(name); }

STUB int create_temp_file(const char *base, char **name)
{
    char path[] = "stub.XXXXXX";
    int file = mkstemp(path);

    (void)base;
    TEST_VERIFY_EXIT(file >= 0);
    unlink(path);
    if (name != NULL)
        *name = NULL;
    return file;
}

STUB void *xmmap(void *at, size_t size, int rights, int flags, int file)
{
    void *memory = mmap(at, size, rights, flags, file, 0);

    TEST_VERIFY_EXIT(memory != MAP_FAILED);
    return memory;
}

STUB void xmunmap(void *memory, size_t size) { STUB_DEMAND(munmap(memory, size)); }

STUB void xwrite(int file, const void *bytes, size_t size)
{
    TEST_VERIFY_EXIT(write(file, bytes, size) == (ssize_t)size);
}

STUB pid_t xfork(void)
{
    pid_t child = fork();

    TEST_VERIFY_EXIT(child >= 0);
    return child;
}

STUB pid_t xwaitpid(pid_t child, int *status, int flags)
{
    pid_t found = waitpid(child, status, flags);

    TEST_VERIFY_EXIT(found >= 0);
    return found;
}

/* The kernel's FUTEX_LOCK_PI2, which this clock needs, is there from Linux 5.14 on. */
STUB bool support_mutex_pi_monotonic(void) { return true; }

#endif
