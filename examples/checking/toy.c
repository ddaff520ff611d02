/*
 * toy: the toy memory of toy.h with three processors, whose trace `lrc check` judges.
 *
 *     toy right   three processors, one after the other: whoever is ordered after a store sees it
 *     toy stale   the same with a bug: a release hands on the releaser's own notices, and not those it has heard of
 *     toy free    as right, but the processors run at the same time: another trace each time
 *
 *     cc -pthread -o toy toy.c && ./toy stale | lrc check --lax
 */
#include "toy.h"

#include <string.h>

enum { PROCESSORS = 3 };

static pthread_mutex_t guard = PTHREAD_MUTEX_INITIALIZER;
static pthread_cond_t changed = PTHREAD_COND_INITIALIZER;
static int turn;
static bool is_free; /* takes no turns */

static void await_turn(int number)
{
    pthread_mutex_lock(&guard);
    while (!is_free && turn != number)
        pthread_cond_wait(&changed, &guard);
    pthread_mutex_unlock(&guard);
}

static void end_turn(void)
{
    pthread_mutex_lock(&guard);
    turn++;
    pthread_cond_broadcast(&changed);
    pthread_mutex_unlock(&guard);
}

/* A chain: what processor 0 stores under lock 0 reaches processor 2 under lock 1, by way of processor 1. */
static void work(int self)
{
    uint32_t sum;

    switch (self) {
    case 0:
        toy_acquire(self, 0);
        toy_store(self, 0, 9);
        toy_release(self, 0);
        break;
    case 1:
        toy_acquire(self, 1);
        toy_acquire(self, 0);
        toy_release(self, 0);
        toy_store(self, 2, 5);
        toy_release(self, 1);
        break;
    default:
        toy_acquire(self, 1);
        sum = toy_load(self, 0);
        sum += toy_load(self, 2);
        toy_store(self, 3, sum);
        toy_release(self, 1);
    }
}

static void *run(void *argument)
{
    int self = (int)(intptr_t)argument;

    await_turn(self);
    work(self);
    end_turn();
    await_turn(PROCESSORS + self);
    toy_arrive(self);
    end_turn();
    await_turn(2 * PROCESSORS + self);
    toy_depart(self);
    toy_load(self, 3);
    end_turn();
    return NULL;
}

int main(int count, char **words)
{
    pthread_t threads[PROCESSORS];
    const char *mode = count == 2 ? words[1] : "";

    toy_is_stale = strcmp(mode, "stale") == 0;
    is_free = strcmp(mode, "free") == 0;
    if (!toy_is_stale && !is_free && strcmp(mode, "right") != 0)
        toy_fail("usage: toy right | stale | free");
    toy_begin(PROCESSORS, 2, 2, 2, 0);
    for (int i = 0; i < PROCESSORS; i++)
        if (pthread_create(&threads[i], NULL, run, (void *)(intptr_t)i) != 0)
            toy_fail("a thread can't be started");
    for (int i = 0; i < PROCESSORS; i++)
        pthread_join(threads[i], NULL);
    if (fflush(stdout) != 0)
        toy_fail("the trace can't be written");
    return EXIT_SUCCESS;
}
