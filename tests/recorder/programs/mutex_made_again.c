/* race-free: a mutex that is destroyed and made again at one place */
#include "../threads.h"

static pthread_mutex_t mutex = PTHREAD_MUTEX_INITIALIZER;
int word;

static void *one(void *given)
{
    for (int at = 0; at < 100; at++) {
        pthread_mutex_lock(&mutex);
        word++;
        pthread_mutex_unlock(&mutex);
    }
    return given;
}

int main(void)
{
    pthread_mutex_lock(&mutex);
    pthread_mutex_unlock(&mutex);
    pthread_mutex_destroy(&mutex);
    pthread_mutex_init(&mutex, NULL);
    run(one, one);
    return 0;
}
