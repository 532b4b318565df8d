/* A library that calls glibc itself if it is opened with RTLD_DEEPBIND. */
#include <pthread.h>

void lock_and_unlock_past(pthread_mutex_t *mutex)
{
    pthread_mutex_lock(mutex);
    pthread_mutex_unlock(mutex);
}
