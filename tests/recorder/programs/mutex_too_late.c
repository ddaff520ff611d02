/* race-free: a timed lock that comes too late has no lock */
#include "../threads.h"

static pthread_mutex_t mutex = PTHREAD_MUTEX_INITIALIZER;
int word;

static void *one(void *given)
{
    pthread_mutex_lock(&mutex);
    word++;
    open_gate(0);
    pass_gate(1);
    pthread_mutex_unlock(&mutex);
    return given;
}

static void *other(void *given)
{
    struct timespec until;
    pass_gate(0);
    clock_gettime(CLOCK_REALTIME, &until);
    if (pthread_mutex_timedlock(&mutex, &until) != ETIMEDOUT)
        abort();
    open_gate(1);
    return given;
}

int main(void)
{
    run(one, other);
    return 0;
}
