/* A test as those of glibc. */
#include <pthread.h>

static int do_test(void)
{
    static pthread_mutex_t mutex = PTHREAD_MUTEX_INITIALIZER;

    return pthread_mutex_lock(&mutex) + pthread_mutex_unlock(&mutex);
}

#include <support/test-driver.c>
