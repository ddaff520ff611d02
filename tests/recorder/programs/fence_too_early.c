/* racy: the word is stored to after the release fence */
#include "../threads.h"

static _Atomic int ready;
int word;

static void *one(void *given)
{
    atomic_thread_fence(memory_order_release);
    word = 1;
    atomic_store_explicit(&ready, 1, memory_order_relaxed);
    return given;
}

static void *other(void *given)
{
    while (!atomic_load_explicit(&ready, memory_order_acquire))
        sched_yield();
    word = 2;
    return given;
}

int main(void)
{
    run(one, other);
    return 0;
}
