/* race-free: a lock of one's own, by exchange and release store */
#include "../threads.h"

static _Atomic int taken;
int word;

static void *one(void *given)
{
    for (int at = 0; at < 100; at++) {
        while (atomic_exchange_explicit(&taken, 1, memory_order_acquire))
            sched_yield();
        word++;
        atomic_store_explicit(&taken, 0, memory_order_release);
    }
    return given;
}

static void *other(void *given)
{
    for (int at = 0; at < 100; at++) {
        int free = 0;
        while (!atomic_compare_exchange_weak_explicit(&taken, &free, 1, memory_order_acquire, memory_order_relaxed))
            free = 0;
        word++;
        atomic_store_explicit(&taken, 0, memory_order_release);
    }
    return given;
}

int main(void)
{
    run(one, other);
    return 0;
}
