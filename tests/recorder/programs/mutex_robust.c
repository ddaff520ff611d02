/* race-free: a robust mutex whose holder ended: the next one comes after it */
#include "../threads.h"

static pthread_mutex_t lock;
int word;

static void *one(void *given)
{
    pthread_mutex_lock(&lock);
    word++;
    open_gate(0);
    return given;
}

static void *other(void *given)
{
    pass_gate(0);
    if (pthread_mutex_lock(&lock) != EOWNERDEAD)
        abort();
    pthread_mutex_consistent(&lock);
    word++;
    pthread_mutex_unlock(&lock);
    return given;
}

int main(void)
{
    pthread_mutexattr_t attributes;
    pthread_mutexattr_init(&attributes);
    pthread_mutexattr_setrobust(&attributes, PTHREAD_MUTEX_ROBUST);
    pthread_mutex_init(&lock, &attributes);
    run(one, other);
    return 0;
}
