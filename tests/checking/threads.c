/*
 * threads: what logger.h has for threads, one mode each; threads_other.c is its other file, which logs too.
 *
 *     threads many N     N threads of one body add to a counter, each under the lock, half of them in the other file
 *     threads wait       a thread waits for a condition that another one signals
 *     threads timed      a thread waits for one that never comes, up to a time
 *     threads try        two threads take the lock by trying
 *     threads start      main starts two threads, one after the other, and joins both before it reads what they stored
 *     threads unjoined   the same, but joined without the logger: main races with the second one
 *     threads past N     more threads than processors, N where there are 2
 */
#include "threads.h"
#include <errno.h>
#include <sched.h>
#include <string.h>

uint32_t words[WORDS];
pthread_mutex_t lock = PTHREAD_MUTEX_INITIALIZER;
static pthread_cond_t filled = PTHREAD_COND_INITIALIZER;

static void *add(void *number)
{
    if ((int)(intptr_t)number != trace_number())
        trace_refuse("the body's argument is another processor", trace_number());
    if (trace_number() % 2)
        return add_elsewhere(number);
    LOCK(0, lock);
    STORE(COUNTER, words[COUNTER], LOAD(COUNTER, words[COUNTER]) + 1);
    UNLOCK(0, lock);
    return NULL;
}

static void *take(void *unused)
{
    LOCK(0, lock);
    while (!LOAD(COUNTER, words[COUNTER]))
        WAIT(0, lock, filled);
    STORE(RESULT, words[RESULT], 1);
    UNLOCK(0, lock);
    return unused;
}

static void *put(void *unused)
{
    usleep(20000);
    LOCK(0, lock);
    STORE(COUNTER, words[COUNTER], 7);
    pthread_cond_signal(&filled);
    UNLOCK(0, lock);
    return unused;
}

static void *take_in_time(void *unused)
{
    struct timespec time;

    clock_gettime(CLOCK_REALTIME, &time);
    LOCK(0, lock);
    if (TIMED_WAIT(0, lock, filled, time) != ETIMEDOUT)
        trace_refuse("the wait did not end in time", 0);
    LOAD(COUNTER, words[COUNTER]);
    UNLOCK(0, lock);
    return unused;
}

static void *try(void *unused)
{
    while (TRY_LOCK(0, lock) == EBUSY)
        sched_yield();
    STORE(COUNTER, words[COUNTER], LOAD(COUNTER, words[COUNTER]) + 1);
    UNLOCK(0, lock);
    return unused;
}

static void *double_it(void *given)
{
    uint32_t *word = given;

    STORE(RESULT, *word, LOAD(COUNTER, words[COUNTER]) * 2);
    return word;
}

static void start(int is_joined)
{
    struct trace_child one, other;

    trace_thread(0);
    STORE(COUNTER, words[COUNTER], 5);
    START(one, 1, 0, double_it, &words[RESULT]);
    if (JOIN(one) != &words[RESULT])
        trace_refuse("a join answers something else than the body", 1);
    START(other, 2, 2, double_it, &words[RESULT]);
    if (is_joined)
        JOIN(other);
    else
        pthread_join(other.thread, NULL);
    LOAD(RESULT, words[RESULT]);
}

int main(int argc, char **argv)
{
    trace_body *const waiting[] = {take, put}, *const timed[] = {take_in_time};
    int count = argc > 2 ? atoi(argv[2]) : 2;
    const char *mode = argc > 1 ? argv[1] : "";

    if (!strcmp(mode, "many")) {
        trace_begin(stdout, count, WORDS, 1, 0);
        trace_run_all(add, count);
    } else if (!strcmp(mode, "past")) {
        trace_begin(stdout, 2, WORDS, 1, 0);
        trace_run_all(add, count);
    } else if (!strcmp(mode, "try")) {
        trace_begin(stdout, 2, WORDS, 1, 0);
        trace_run_all(try, 2);
    } else if (!strcmp(mode, "wait")) {
        trace_begin(stdout, 2, WORDS, 1, 0);
        trace_run(waiting, 2);
    } else if (!strcmp(mode, "timed")) {
        trace_begin(stdout, 1, WORDS, 1, 0);
        trace_run(timed, 1);
    } else {
        trace_begin(stdout, 3, WORDS, 0, 4);
        start(!strcmp(mode, "start"));
    }
    return 0;
}
