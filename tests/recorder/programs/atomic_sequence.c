/* race-free: a relaxed add goes on with the sequence of a release store */
#include "../threads.h"

static _Atomic int ready;
int word;

static void *first(void *given)
{
    word = 1;
    atomic_store_explicit(&ready, 1, memory_order_release);
    return given;
}

static void *second(void *given)
{
    while (atomic_load_explicit(&ready, memory_order_relaxed) != 1)
        sched_yield();
    atomic_fetch_add_explicit(&ready, 1, memory_order_relaxed);
    return given;
}

static void *third(void *given)
{
    while (atomic_load_explicit(&ready, memory_order_relaxed) != 2)
        usleep(1000);
    atomic_load_explicit(&ready, memory_order_acquire);
    word = 2;
    return given;
}

int main(void)
{
    void *(*bodies[])(void *) = {first, second, third};
    pthread_t threads[3];

    for (int at = 2; at >= 0; at--)
        pthread_create(&threads[at], NULL, bodies[at], NULL);
    for (int at = 0; at < 3; at++)
        pthread_join(threads[at], NULL);
    return 0;
}
