/* What the programs share: two bodies, each on a thread, from begin to end. */
#define _GNU_SOURCE
#include <errno.h>
#include <pthread.h>
#include <sched.h>
#include <semaphore.h>
#include <signal.h>
#include <stdatomic.h>
#include <stdint.h>
#include <stdio.h>
#include <stdlib.h>
#include <string.h>
#include <time.h>
#include <unistd.h>

static inline void run(void *(*one)(void *), void *(*other)(void *))
{
    pthread_t threads[2];

    pthread_create(&threads[0], NULL, one, NULL);
    pthread_create(&threads[1], NULL, other, NULL);
    pthread_join(threads[0], NULL);
    pthread_join(threads[1], NULL);
}

/* Gates, by which one thread waits for another one without an order that a trace shows. */
static _Atomic int gates[2];

static inline void open_gate(int gate)
{
    atomic_store_explicit(&gates[gate], 1, memory_order_relaxed);
}

static inline void pass_gate(int gate)
{
    while (!atomic_load_explicit(&gates[gate], memory_order_relaxed))
        sched_yield();
}
