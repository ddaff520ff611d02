/* race-free: a condition variable whose time is over, and one by another clock */
#include "../threads.h"

static pthread_mutex_t mutex = PTHREAD_MUTEX_INITIALIZER;
int word;
static pthread_cond_t changed = PTHREAD_COND_INITIALIZER;

static void *one(void *given)
{
    pthread_mutex_lock(&mutex);
    word++;
    pthread_mutex_unlock(&mutex);
    return given;
}

static void *other(void *given)
{
    struct timespec until;
    clock_gettime(CLOCK_MONOTONIC, &until);
    pthread_mutex_lock(&mutex);
    pthread_cond_clockwait(&changed, &mutex, CLOCK_MONOTONIC, &until);
    pthread_cond_timedwait(&changed, &mutex, &until);
    word++;
    pthread_mutex_unlock(&mutex);
    return given;
}

int main(void)
{
    run(one, other);
    return 0;
}
