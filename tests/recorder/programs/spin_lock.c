/* race-free: a counter under a spin lock */
#include "../threads.h"

static pthread_spinlock_t lock;
int word;

static void *one(void *given)
{
    for (int at = 0; at < 100; at++) {
        pthread_spin_lock(&lock);
        word++;
        pthread_spin_unlock(&lock);
    }
    return given;
}

static void *other(void *given)
{
    while (pthread_spin_trylock(&lock))
        sched_yield();
    word++;
    pthread_spin_unlock(&lock);
    return given;
}

int main(void)
{
    pthread_spin_init(&lock, PTHREAD_PROCESS_PRIVATE);
    run(one, other);
    return 0;
}
