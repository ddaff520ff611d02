/* race-free: relaxed adds race with nothing of their kind */
#include "../threads.h"

static _Atomic int ready;

static void *one(void *given)
{
    for (int at = 0; at < 100; at++)
        atomic_fetch_add_explicit(&ready, 1, memory_order_relaxed);
    return given;
}

static void *other(void *given)
{
    for (int at = 0; at < 100; at++)
        atomic_fetch_sub_explicit(&ready, 1, memory_order_relaxed);
    return given;
}

int main(void)
{
    run(one, other);
    return 0;
}
