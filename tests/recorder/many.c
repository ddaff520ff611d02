/* 63 threads beside the first one, which lock, wait, hand over, and take and free memory. */
#include "threads.h"

enum { THREADS = 63, TIMES = 200 };

static pthread_mutex_t mutex = PTHREAD_MUTEX_INITIALIZER;
static pthread_rwlock_t shared = PTHREAD_RWLOCK_INITIALIZER;
static pthread_cond_t changed = PTHREAD_COND_INITIALIZER;
static pthread_barrier_t barrier;
static _Atomic(int *) block;
int turns, words[64];

static void hands_over(int at)
{
    int *mine = malloc(64);

    mine[at % 16] = at;
    free(atomic_exchange_explicit(&block, mine, memory_order_acq_rel));
}

static void *body(void *given)
{
    int number = (int)(intptr_t)given;

    pthread_barrier_wait(&barrier);
    for (int at = 0; at < TIMES; at++) {
        pthread_mutex_lock(&mutex);
        turns++;
        pthread_cond_broadcast(&changed);
        pthread_mutex_unlock(&mutex);
        hands_over(at);
        if (at % 8)
            pthread_rwlock_rdlock(&shared);
        else
            pthread_rwlock_wrlock(&shared);
        if (at % 8 == 0)
            words[number]++;
        pthread_rwlock_unlock(&shared);
    }
    return given;
}

int main(void)
{
    pthread_t threads[THREADS];

    pthread_barrier_init(&barrier, NULL, THREADS);
    for (int at = 0; at < THREADS; at++)
        pthread_create(&threads[at], NULL, body, (void *)(intptr_t)at);
    pthread_mutex_lock(&mutex);
    while (turns < THREADS * TIMES)
        pthread_cond_wait(&changed, &mutex);
    pthread_mutex_unlock(&mutex);
    for (int at = 0; at < THREADS; at++)
        pthread_join(threads[at], NULL);
    free(atomic_load(&block));
    return 0;
}
