/* hangs: each thread has the lock that the other one asks for */
#include "../threads.h"

static pthread_mutex_t mutex = PTHREAD_MUTEX_INITIALIZER, second = PTHREAD_MUTEX_INITIALIZER;

static void *one(void *given)
{
    pthread_mutex_lock(&mutex);
    open_gate(0);
    pass_gate(1);
    pthread_mutex_lock(&second);
    return given;
}

static void *other(void *given)
{
    pthread_mutex_lock(&second);
    open_gate(1);
    pass_gate(0);
    pthread_mutex_lock(&mutex);
    return given;
}

int main(void)
{
    alarm(3);
    run(one, other);
    return 0;
}
