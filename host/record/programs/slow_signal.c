/* A library that stands below the recorder: a signal lasts 200 ms. */
#include <dlfcn.h>
#include <pthread.h>
#include <time.h>

int pthread_cond_signal(pthread_cond_t *variable)
{
    struct timespec pause = {0, 200000000};
    int (*below)(pthread_cond_t *);

    *(void **)&below = dlvsym(RTLD_NEXT, "pthread_cond_signal", "GLIBC_2.3.2");
    if (below == NULL)
        *(void **)&below = dlsym(RTLD_NEXT, "pthread_cond_signal");
    nanosleep(&pause, NULL);
    return below(variable);
}
