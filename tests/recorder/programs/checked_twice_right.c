/* race-free: double-checked locking with acquire and release */
#include "../threads.h"

static pthread_mutex_t mutex = PTHREAD_MUTEX_INITIALIZER;
static _Atomic int made;
int word, seen[2];

static void make(void)
{
    if (atomic_load_explicit(&made, memory_order_acquire))
        return;
    pthread_mutex_lock(&mutex);
    if (!atomic_load_explicit(&made, memory_order_relaxed)) {
        word = 1;
        atomic_store_explicit(&made, 1, memory_order_release);
    }
    pthread_mutex_unlock(&mutex);
}

static void *one(void *given)
{
    make();
    seen[0] = word;
    return given;
}

static void *other(void *given)
{
    make();
    seen[1] = word;
    return given;
}

int main(void)
{
    run(one, other);
    return 0;
}
