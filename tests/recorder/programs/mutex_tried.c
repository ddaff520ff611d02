/* race-free: a mutex that is tried, and one with a time */
#include "../threads.h"

static pthread_mutex_t mutex = PTHREAD_MUTEX_INITIALIZER;
int word;

static void *one(void *given)
{
    while (pthread_mutex_trylock(&mutex))
        sched_yield();
    word++;
    pthread_mutex_unlock(&mutex);
    return given;
}

static void *other(void *given)
{
    struct timespec until;
    clock_gettime(CLOCK_REALTIME, &until);
    until.tv_sec += 10;
    if (pthread_mutex_timedlock(&mutex, &until))
        abort();
    word++;
    pthread_mutex_unlock(&mutex);
    return given;
}

int main(void)
{
    run(one, other);
    return 0;
}
