/*
 * sharing: a table under a read-write lock, whose two readers meet at a barrier of their own, logged by logger.h as a
 * trace for `lrc check`.
 *
 *     sharing right    each reads under the lock
 *     sharing forgot   processor 2 forgets the lock: it races with the writer
 *     sharing apart    the readers don't meet: processor 1 races with processor 2
 *
 *     cc -pthread -o sharing sharing.c && ./sharing apart | lrc check
 */
#define _GNU_SOURCE
#include "logger.h"
#include <string.h>

enum { TABLE, READ_BY, SUM };
enum { WRITTEN, READ, MEETING };

static uint32_t words[4];
static struct trace_rwlock lock = TRACE_RWLOCK_INIT(WRITTEN, READ);
static struct trace_barrier meeting;
/* Turns that aren't logged: so each run gives one trace, and they order nothing for the judge. */
static struct trace_flag turns[] = {TRACE_FLAG_INIT, TRACE_FLAG_INIT, TRACE_FLAG_INIT, TRACE_FLAG_INIT, TRACE_FLAG_INIT};
static int forgets, is_apart;

static void write_table(uint32_t value)
{
    WRITE_LOCK(lock);
    STORE(TABLE, words[TABLE], value);
    WRITE_UNLOCK(lock);
}

static void *writer(void *unused)
{
    write_table(7);
    trace_raise(&turns[0]);
    trace_wait(&turns[2]);
    write_table(8);
    trace_raise(&turns[3]);
    return unused;
}

/* Of processor 1 or 2: what it read, where the other one finds it. */
static void read_table(int reader, int takes_the_lock)
{
    if (takes_the_lock)
        READ_LOCK(lock);
    STORE(READ_BY + reader - 1, words[READ_BY + reader - 1], LOAD(TABLE, words[TABLE]));
    if (takes_the_lock)
        READ_UNLOCK(lock);
}

static void *one(void *unused)
{
    trace_wait(&turns[0]);
    read_table(1, 1);
    trace_raise(&turns[1]);
    trace_wait(&turns[3]);
    if (!is_apart)
        MEET(meeting);
    trace_wait(&turns[4]);
    LOAD(READ_BY + 1, words[READ_BY + 1]);
    return unused;
}

static void *other(void *unused)
{
    trace_wait(&turns[1]);
    read_table(2, !forgets);
    trace_raise(&turns[2]);
    trace_wait(&turns[3]);
    if (!is_apart)
        MEET(meeting);
    trace_raise(&turns[4]);
    return unused;
}

int main(int argc, char **argv)
{
    trace_body *const bodies[] = {writer, one, other};

    if (argc != 2 || (strcmp(argv[1], "right") && strcmp(argv[1], "forgot") && strcmp(argv[1], "apart"))) {
        fprintf(stderr, "usage: sharing right|forgot|apart\n");
        return 2;
    }
    forgets = !strcmp(argv[1], "forgot");
    is_apart = !strcmp(argv[1], "apart");
    trace_meet_begin(&meeting, 2, MEETING);
    trace_begin(stdout, 3, 4, 0, 4);
    trace_run(bodies, 3);
    return 0;
}
