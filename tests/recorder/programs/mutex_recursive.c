/* race-free: a recursive mutex is freed when it was freed as often as taken */
#include "../threads.h"

static pthread_mutex_t lock = PTHREAD_RECURSIVE_MUTEX_INITIALIZER_NP;
int word;

static void *one(void *given)
{
    pthread_mutex_lock(&lock);
    pthread_mutex_lock(&lock);
    pthread_mutex_unlock(&lock);
    word++;
    pthread_mutex_unlock(&lock);
    return given;
}

static void *other(void *given)
{
    pthread_mutex_lock(&lock);
    word++;
    pthread_mutex_unlock(&lock);
    return given;
}

int main(void)
{
    run(one, other);
    return 0;
}
