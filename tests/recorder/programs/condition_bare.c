/* racy: the condition is looked at without its mutex */
#include "../threads.h"

static pthread_mutex_t mutex = PTHREAD_MUTEX_INITIALIZER;
int word;
static pthread_cond_t changed = PTHREAD_COND_INITIALIZER;
int ready;

static void *one(void *given)
{
    word = 1;
    ready = 1;
    pthread_cond_signal(&changed);
    return given;
}

static void *other(void *given)
{
    struct timespec until;

    pthread_mutex_lock(&mutex);
    clock_gettime(CLOCK_REALTIME, &until);
    if (!ready)
        pthread_cond_timedwait(&changed, &mutex, &until);
    pthread_mutex_unlock(&mutex);
    word = 2;
    return given;
}

int main(void)
{
    run(one, other);
    return 0;
}
