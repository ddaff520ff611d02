/* race-free: a condition variable with its loop */
#include "../threads.h"

static pthread_mutex_t mutex = PTHREAD_MUTEX_INITIALIZER;
int word;
static pthread_cond_t changed = PTHREAD_COND_INITIALIZER;
int ready;

static void *one(void *given)
{
    word = 1;
    pthread_mutex_lock(&mutex);
    ready = 1;
    pthread_cond_signal(&changed);
    pthread_mutex_unlock(&mutex);
    return given;
}

static void *other(void *given)
{
    pthread_mutex_lock(&mutex);
    while (!ready)
        pthread_cond_wait(&changed, &mutex);
    pthread_mutex_unlock(&mutex);
    word = 2;
    return given;
}

int main(void)
{
    run(one, other);
    return 0;
}
