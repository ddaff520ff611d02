/* racy: a counter whose mutex one thread forgets */
#include "../threads.h"

static pthread_mutex_t mutex = PTHREAD_MUTEX_INITIALIZER;
int word;

static void *one(void *given)
{
    for (int at = 0; at < 100; at++) {
        pthread_mutex_lock(&mutex);
        word++;
        pthread_mutex_unlock(&mutex);
    }
    return given;
}

static void *other(void *given)
{
    word++;
    return given;
}

int main(void)
{
    run(one, other);
    return 0;
}
