// What the four kernels share: threads that run one function, and a barrier.
//
// Each kernel first writes its shared arrays from one thread, in order. The recorder numbers words as they are first
// touched, so neighbours in an array are then neighbours in the trace.
#ifndef KERNEL_H
#define KERNEL_H
#include <pthread.h>
#include <stdint.h>
#include <stdio.h>
#include <stdlib.h>

#ifndef THREADS
#define THREADS 4
#endif

static pthread_barrier_t kernel_barrier;
static void (*kernel_work)(int self);

// Waits until every thread is here.
static inline void meet(void) { pthread_barrier_wait(&kernel_barrier); }

static void *kernel_thread(void *self) {
    kernel_work((int)(intptr_t)self);
    return NULL;
}

// Runs work(0) to work(THREADS - 1), each on a thread of its own, and waits for all.
static inline void run_threads(void (*work)(int self)) {
    pthread_t threads[THREADS];
    kernel_work = work;
    pthread_barrier_init(&kernel_barrier, NULL, THREADS);
    for (int self = 0; self < THREADS; self++)
        if (pthread_create(&threads[self], NULL, kernel_thread, (void *)(intptr_t)self)) abort();
    for (int self = 0; self < THREADS; self++) pthread_join(threads[self], NULL);
}

// The first of `count` things that this thread has, if each has a part in one piece.
static inline int part(int self, int count) { return (int)((long)count * self / THREADS); }
#endif
