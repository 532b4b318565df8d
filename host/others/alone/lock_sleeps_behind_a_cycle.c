/* Two normal mutexes with PTHREAD_PRIO_INHERIT. One thread has the first and asks for the second with a deadline; the
   other has the second and locks the first. For a moment that is a cycle. Then the first thread times out, and gives up
   what it has. So the other one has to get it. Status 1 if it still sleeps a second later, while anybody else can have
   the mutex. */
#include <pthread.h>
#include <stdatomic.h>
#include <stdio.h>
#include <time.h>
#include <unistd.h>

static pthread_mutex_t first, second;
static atomic_int stage;

static void *has_a_deadline(void *value)
{
    struct timespec time;

    pthread_mutex_lock(&first);
    atomic_store(&stage, 1);
    while (atomic_load(&stage) < 2)
        usleep(100);
    clock_gettime(CLOCK_REALTIME, &time);
    time.tv_sec += 4;
    if (pthread_mutex_timedlock(&second, &time) == 0)
        pthread_mutex_unlock(&second);
    pthread_mutex_unlock(&first);
    atomic_store(&stage, 3);
    return value;
}

static void *has_none(void *value)
{
    while (atomic_load(&stage) < 1)
        usleep(100);
    pthread_mutex_lock(&second);
    atomic_store(&stage, 2);
    usleep(1000000);
    pthread_mutex_lock(&first);
    pthread_mutex_unlock(&first);
    pthread_mutex_unlock(&second);
    atomic_store(&stage, 4);
    return value;
}

int main(void)
{
    pthread_mutexattr_t attributes;
    pthread_t threads[2];

    pthread_mutexattr_init(&attributes);
    pthread_mutexattr_setprotocol(&attributes, PTHREAD_PRIO_INHERIT);
    pthread_mutex_init(&first, &attributes);
    pthread_mutex_init(&second, &attributes);
    pthread_create(&threads[0], NULL, has_a_deadline, NULL);
    pthread_create(&threads[1], NULL, has_none, NULL);
    pthread_join(threads[0], NULL);
    sleep(1);
    int tried = pthread_mutex_trylock(&first);
    const char *what = atomic_load(&stage) < 4 ? "still sleeps" : "was answered";
    printf("the lock %s; a trylock of its mutex: %d\n", what, tried);
    fflush(stdout);
    _exit(atomic_load(&stage) < 4 && tried == 0);
}
