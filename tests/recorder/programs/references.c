/* race-free: who lets go last frees, by release and acquire */
#include "../threads.h"

struct {
    _Atomic int references;
    int word, other;
} *block;

static void lets_go(void)
{
    if (atomic_fetch_sub_explicit(&block->references, 1, memory_order_release) == 1) {
        atomic_thread_fence(memory_order_acquire);
        free(block);
    }
}

static void *one(void *given)
{
    block->word = 1;
    lets_go();
    return given;
}

static void *other(void *given)
{
    block->other = 2;
    lets_go();
    return given;
}

int main(void)
{
    block = calloc(1, sizeof *block);
    block->references = 2;
    run(one, other);
    return 0;
}
