/* The owner of an ERRORCHECK mutex tries it. The answer has to be EBUSY, and EDEADLK is none of this call. Status 1
   if one of the four mutexes answers it: robust or not, with PTHREAD_PRIO_INHERIT or not. */
#include <errno.h>
#include <pthread.h>
#include <stdio.h>
#include <string.h>

static int tried(int robust, int protocol)
{
    pthread_mutexattr_t attributes;
    pthread_mutex_t mutex;

    pthread_mutexattr_init(&attributes);
    pthread_mutexattr_settype(&attributes, PTHREAD_MUTEX_ERRORCHECK);
    pthread_mutexattr_setrobust(&attributes, robust);
    pthread_mutexattr_setprotocol(&attributes, protocol);
    pthread_mutex_init(&mutex, &attributes);
    pthread_mutex_lock(&mutex);
    int answer = pthread_mutex_trylock(&mutex);
    printf("%s, %s: %s\n", robust == PTHREAD_MUTEX_ROBUST ? "robust" : "stalled",
           protocol == PTHREAD_PRIO_INHERIT ? "PTHREAD_PRIO_INHERIT" : "PTHREAD_PRIO_NONE", strerror(answer));
    return answer == EDEADLK;
}

int main(void)
{
    return tried(PTHREAD_MUTEX_STALLED, PTHREAD_PRIO_NONE) | tried(PTHREAD_MUTEX_STALLED, PTHREAD_PRIO_INHERIT) |
           tried(PTHREAD_MUTEX_ROBUST, PTHREAD_PRIO_NONE) | tried(PTHREAD_MUTEX_ROBUST, PTHREAD_PRIO_INHERIT);
}
