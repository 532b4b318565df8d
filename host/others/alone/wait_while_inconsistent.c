/* The owner of a robust mutex ends. The next one is told EOWNERDEAD, owns the mutex, and waits on a condition
   variable. The wait has to give the mutex up; it isn't EPERM, which is for who doesn't own it. Status 1 if it is. */
#include <errno.h>
#include <pthread.h>
#include <stdio.h>
#include <string.h>
#include <time.h>

static pthread_mutex_t mutex;
static pthread_cond_t variable = PTHREAD_COND_INITIALIZER;

static void *takes_it_and_ends(void *value)
{
    pthread_mutex_lock(&mutex);
    return value;
}

int main(void)
{
    pthread_mutexattr_t attributes;
    pthread_t thread;
    struct timespec time;

    pthread_mutexattr_init(&attributes);
    pthread_mutexattr_setrobust(&attributes, PTHREAD_MUTEX_ROBUST);
    pthread_mutex_init(&mutex, &attributes);
    pthread_create(&thread, NULL, takes_it_and_ends, NULL);
    pthread_join(thread, NULL);
    int locked = pthread_mutex_lock(&mutex);
    clock_gettime(CLOCK_REALTIME, &time);
    time.tv_sec++;
    int waited = pthread_cond_timedwait(&variable, &mutex, &time);
    printf("the lock: %s; the wait: %s\n", strerror(locked), strerror(waited));
    return locked == EOWNERDEAD && waited == EPERM;
}
