/* race-free: an atomic of sixteen bytes hands a word over */
#include "../threads.h"

static _Atomic __int128 ready;
int word;

static void *one(void *given)
{
    word = 1;
    atomic_store_explicit(&ready, (__int128)1 << 70, memory_order_release);
    return given;
}

static void *other(void *given)
{
    while (!(atomic_load_explicit(&ready, memory_order_acquire) >> 70))
        sched_yield();
    word = 2;
    return given;
}

int main(void)
{
    run(one, other);
    return 0;
}
