/* A recursive robust mutex is inconsistent, and its owner locks it once more. The first unlock has to give up one hold:
   0. Status 1 if it is ENOTRECOVERABLE, while the owner still holds the mutex. */
#include <errno.h>
#include <pthread.h>
#include <stdint.h>
#include <stdio.h>
#include <string.h>

static pthread_mutex_t mutex;

static void *takes_it_and_ends(void *value)
{
    pthread_mutex_lock(&mutex);
    return value;
}

static void *tries(void *value)
{
    (void)value;
    return (void *)(intptr_t)pthread_mutex_trylock(&mutex);
}

static int in_a_thread(void *(*body)(void *))
{
    pthread_t thread;
    void *answer;

    pthread_create(&thread, NULL, body, NULL);
    pthread_join(thread, &answer);
    return (int)(intptr_t)answer;
}

int main(void)
{
    pthread_mutexattr_t attributes;

    pthread_mutexattr_init(&attributes);
    pthread_mutexattr_setrobust(&attributes, PTHREAD_MUTEX_ROBUST);
    pthread_mutexattr_settype(&attributes, PTHREAD_MUTEX_RECURSIVE);
    pthread_mutex_init(&mutex, &attributes);
    in_a_thread(takes_it_and_ends);
    int first = pthread_mutex_lock(&mutex), second = pthread_mutex_lock(&mutex);
    int given_up = pthread_mutex_unlock(&mutex);
    int tried = in_a_thread(tries);
    printf("two locks: %s, %s; the unlock: %s; a trylock by another: %s\n", strerror(first), strerror(second),
           strerror(given_up), strerror(tried));
    return first == EOWNERDEAD && second == 0 && given_up == ENOTRECOVERABLE && tried == EBUSY;
}
