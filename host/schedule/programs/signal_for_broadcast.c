/* Two threads wait for a gate, and the signal that it is open wakes one of them. Mended: a broadcast. */
#include "programs.h"

static pthread_mutex_t lock = PTHREAD_MUTEX_INITIALIZER;
static pthread_cond_t opened = PTHREAD_COND_INITIALIZER;
static bool is_open;

static void *enter(void *unused)
{
    pthread_mutex_lock(&lock);
    while (!is_open)
        pthread_cond_wait(&opened, &lock);
    pthread_mutex_unlock(&lock);
    return unused;
}

static void *open_gate(void *unused)
{
    pthread_mutex_lock(&lock);
    is_open = true;
    if (MENDED)
        pthread_cond_broadcast(&opened);
    else
        pthread_cond_signal(&opened);
    pthread_mutex_unlock(&lock);
    return unused;
}

int main(void)
{
    start_and_join((Body *[]){enter, enter, open_gate}, 3);
    return 0;
}
