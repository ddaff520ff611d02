/*
 * plain: runs a script on plain shared words, each access under one mutex, and prints a trace. It is the model of an
 * adapter: put your own memory's calls in the place of these.
 *
 *     cc -pthread -o plain examples/adapters/plain.c
 *     ./lrc draw guarded --seed 1 | ./plain | ./lrc check
 */
#define _GNU_SOURCE
#include "../checking/logger.h"
#include "script.h"

static uint32_t words[1 << 12];
static pthread_mutex_t locks[32];
static struct trace_flag flags[32];
static pthread_barrier_t barrier;

static uint32_t load(int processor, int address)
{
    return LOAD(address, words[address]);
}

static void store(int processor, int address, uint32_t value)
{
    STORE(address, words[address], value);
}

static void acquire(int processor, int lock)
{
    LOCK(lock, locks[lock]);
}

static void release(int processor, int lock)
{
    UNLOCK(lock, locks[lock]);
}

static void meet(int processor)
{
    BARRIER(barrier);
}

static void set(int processor, int flag)
{
    SET(flag, flags[flag]);
}

static void await_flag(int processor, int flag)
{
    AWAIT(flag, flags[flag]);
}

int main(void)
{
    read_script();
    print_sizes();
    trace_file = stdout;
    trace_processors = script.processors;
    pthread_barrier_init(&barrier, NULL, script.processors);
    for (int at = 0; at < 32; at++) {
        pthread_mutex_init(&locks[at], NULL);
        flags[at] = (struct trace_flag)TRACE_FLAG_INIT;
    }
    run_script((struct memory_calls){trace_thread, load, store, acquire, release, meet, set, await_flag});
}
