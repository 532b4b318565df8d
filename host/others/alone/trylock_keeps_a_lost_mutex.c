/* A robust mutex was given up while it was inconsistent, so nobody gets it again. One thread tries it, is told
   ENOTRECOVERABLE, and ends. Another one has to be told the same. Status 1 if it is EBUSY: the mutex stayed locked. */
#include <errno.h>
#include <pthread.h>
#include <stdint.h>
#include <stdio.h>
#include <string.h>

static pthread_mutex_t mutex;

static void *takes_it_and_ends(void *value)
{
    pthread_mutex_lock(&mutex);
    return value;
}

static void *tries(void *value)
{
    (void)value;
    return (void *)(intptr_t)pthread_mutex_trylock(&mutex);
}

static int in_a_thread(void *(*body)(void *))
{
    pthread_t thread;
    void *answer;

    pthread_create(&thread, NULL, body, NULL);
    pthread_join(thread, &answer);
    return (int)(intptr_t)answer;
}

int main(void)
{
    pthread_mutexattr_t attributes;

    pthread_mutexattr_init(&attributes);
    pthread_mutexattr_setrobust(&attributes, PTHREAD_MUTEX_ROBUST);
    pthread_mutex_init(&mutex, &attributes);
    in_a_thread(takes_it_and_ends);
    int locked = pthread_mutex_lock(&mutex);
    int given_up = pthread_mutex_unlock(&mutex);
    int first = in_a_thread(tries), second = in_a_thread(tries);
    printf("the lock: %s; the unlock: %d; two trylocks: %s, %s\n", strerror(locked), given_up, strerror(first),
           strerror(second));
    return first == ENOTRECOVERABLE && second == EBUSY;
}
