/* Two recursive mutexes with PTHREAD_PRIO_INHERIT. Each of two threads has one, and asks for the other one with a
   deadline. That is answered EDEADLK, ETIMEDOUT or 0. Status 1 if the process is aborted. */
#include <pthread.h>
#include <stdatomic.h>
#include <stdio.h>
#include <sys/wait.h>
#include <time.h>
#include <unistd.h>

static pthread_mutex_t mutexes[2];
static atomic_int holding;

static void *takes_one_and_wants_the_other(void *value)
{
    int own = (int)((pthread_mutex_t *)value - mutexes);
    struct timespec time;

    pthread_mutex_lock(&mutexes[own]);
    atomic_fetch_add(&holding, 1);
    while (atomic_load(&holding) < 2)
        ;
    clock_gettime(CLOCK_REALTIME, &time);
    time.tv_sec += 1;
    if (pthread_mutex_timedlock(&mutexes[1 - own], &time) == 0)
        pthread_mutex_unlock(&mutexes[1 - own]);
    pthread_mutex_unlock(&mutexes[own]);
    return NULL;
}

static void play(void)
{
    pthread_mutexattr_t attributes;
    pthread_t threads[2];

    pthread_mutexattr_init(&attributes);
    pthread_mutexattr_settype(&attributes, PTHREAD_MUTEX_RECURSIVE);
    pthread_mutexattr_setprotocol(&attributes, PTHREAD_PRIO_INHERIT);
    for (int i = 0; i < 2; i++)
        pthread_mutex_init(&mutexes[i], &attributes);
    for (int i = 0; i < 2; i++)
        pthread_create(&threads[i], NULL, takes_one_and_wants_the_other, &mutexes[i]);
    for (int i = 0; i < 2; i++)
        pthread_join(threads[i], NULL);
}

int main(void)
{
    int status;
    pid_t child = fork();

    if (child == 0) {
        play();
        _exit(0);
    }
    waitpid(child, &status, 0);
    puts(WIFSIGNALED(status) ? "the process was ended by a signal" : "both locks were answered");
    return WIFSIGNALED(status);
}
