/* race-free: the stack of a thread that ended is another thread's */
#include "../threads.h"

static void *one(void *given)
{
    volatile int words[64];

    for (int at = 0; at < 64; at++)
        words[at] = at;
    memset((void *)words, 0, sizeof words);
    atomic_fetch_add_explicit(&gates[0], 1, memory_order_relaxed);
    return given;
}

int main(void)
{
    pthread_t thread;
    pthread_attr_t attributes;

    pthread_attr_init(&attributes);
    pthread_attr_setdetachstate(&attributes, PTHREAD_CREATE_DETACHED);
    for (int at = 0; at < 4; at++) {
        pthread_create(&thread, &attributes, one, NULL);
        while (atomic_load_explicit(&gates[0], memory_order_relaxed) <= at)
            sched_yield();
    }
    return 0;
}
