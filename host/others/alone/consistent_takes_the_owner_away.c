/* A recursive robust mutex is inconsistent, and the main thread owns it. Another thread makes it consistent, which
   succeeds. Then the owner can't unlock it: EPERM, which is for who doesn't own it. Status 1 if so. */
#include <errno.h>
#include <pthread.h>
#include <stdint.h>
#include <stdio.h>
#include <string.h>

static pthread_mutex_t mutex;

static void *takes_it_and_ends(void *value)
{
    pthread_mutex_lock(&mutex);
    return value;
}

static void *makes_it_consistent(void *value)
{
    (void)value;
    return (void *)(intptr_t)pthread_mutex_consistent(&mutex);
}

static int in_a_thread(void *(*body)(void *))
{
    pthread_t thread;
    void *answer;

    pthread_create(&thread, NULL, body, NULL);
    pthread_join(thread, &answer);
    return (int)(intptr_t)answer;
}

int main(void)
{
    pthread_mutexattr_t attributes;

    pthread_mutexattr_init(&attributes);
    pthread_mutexattr_setrobust(&attributes, PTHREAD_MUTEX_ROBUST);
    pthread_mutexattr_settype(&attributes, PTHREAD_MUTEX_RECURSIVE);
    pthread_mutex_init(&mutex, &attributes);
    in_a_thread(takes_it_and_ends);
    int locked = pthread_mutex_lock(&mutex);
    int made = in_a_thread(makes_it_consistent);
    int given_up = pthread_mutex_unlock(&mutex);
    printf("the lock: %s; consistent by another: %s; the unlock: %s\n", strerror(locked), strerror(made),
           strerror(given_up));
    return locked == EOWNERDEAD && made == 0 && given_up == EPERM;
}
