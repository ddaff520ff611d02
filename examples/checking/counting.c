/*
 * counting: two threads add to a counter, and log it by logger.h as a trace for `lrc check`.
 *
 *     counting right    each addition is made under the lock
 *     counting forgot   processor 1 forgets the lock once: the program races
 *     counting stale    processor 1 keeps a copy of the counter from before, and doesn't renew it at the lock
 *
 *     cc -pthread -o counting counting.c && ./counting forgot | lrc check
 */
#define _GNU_SOURCE
#include "logger.h"
#include <string.h>

enum { COUNTER, RESULT };

static uint32_t words[2];
static pthread_mutex_t lock = PTHREAD_MUTEX_INITIALIZER;
static pthread_barrier_t barrier;
static struct trace_flag started = TRACE_FLAG_INIT;
/* Turns that aren't logged: so each run gives one trace, and they order nothing for the judge. */
static struct trace_flag one = TRACE_FLAG_INIT, other = TRACE_FLAG_INIT;
static int forgets, is_stale;

static void *first(void *unused)
{
    STORE(COUNTER, words[COUNTER], 10);
    SET(0, started);
    LOCK(0, lock);
    STORE(COUNTER, words[COUNTER], LOAD(COUNTER, words[COUNTER]) + 5);
    UNLOCK(0, lock);
    trace_raise(&one);
    trace_wait(&other);
    BARRIER(barrier);
    STORE(RESULT, words[RESULT], LOAD(COUNTER, words[COUNTER]));
    return unused;
}

static void *second(void *unused)
{
    trace_wait(&one);
    AWAIT(0, started);
    uint32_t copy = 10;
    uint32_t *counter = is_stale ? &copy : &words[COUNTER];
    if (!forgets)
        LOCK(0, lock);
    STORE(COUNTER, words[COUNTER], LOAD(COUNTER, *counter) + 7);
    if (!forgets)
        UNLOCK(0, lock);
    trace_raise(&other);
    BARRIER(barrier);
    return unused;
}

int main(int argc, char **argv)
{
    trace_body *const bodies[] = {first, second};

    if (argc != 2 || (strcmp(argv[1], "right") && strcmp(argv[1], "forgot") && strcmp(argv[1], "stale"))) {
        fprintf(stderr, "usage: counting right|forgot|stale\n");
        return 2;
    }
    forgets = !strcmp(argv[1], "forgot");
    is_stale = !strcmp(argv[1], "stale");
    pthread_barrier_init(&barrier, NULL, 2);
    trace_begin(stdout, 2, 2, 1, 1);
    trace_run(bodies, 2);
    return 0;
}
