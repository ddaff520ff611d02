/* racy: two mutexes, each thread takes another one */
#include "../threads.h"

static pthread_mutex_t mutex = PTHREAD_MUTEX_INITIALIZER;
int word;
static pthread_mutex_t second = PTHREAD_MUTEX_INITIALIZER;

static void *one(void *given)
{
    for (int at = 0; at < 100; at++) {
        pthread_mutex_lock(&mutex);
        word++;
        pthread_mutex_unlock(&mutex);
    }
    return given;
}

static void *other(void *given)
{
    for (int at = 0; at < 100; at++) {
        pthread_mutex_lock(&second);
        word++;
        pthread_mutex_unlock(&second);
    }
    return given;
}

int main(void)
{
    run(one, other);
    return 0;
}
