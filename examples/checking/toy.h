/*
 * toy.h: a toy shared memory under lazy release consistency, over POSIX threads. It logs what it does as a trace for
 * `lrc check`, on standard output.
 *
 *     toy_begin(processors, pages, words, locks, flags)   before the threads; prints the trace's first line
 *     toy_load(p, address), toy_store(p, address, value)
 *     toy_acquire(p, lock), toy_release(p, lock), toy_arrive(p), toy_depart(p), toy_set_flag(p, flag), toy_await_flag(p, flag)
 *
 * Each processor p is a thread with a copy of its own of every page. A store goes into the copy. When the processor asks,
 * releases, arrives, sets or watches, it becomes a notice, which others hear of by a lock, a flag or the barrier. What a
 * notice says is put into a copy when its page is next accessed.
 *
 * `toy_is_stale` is a bug: a release hands on the releaser's own notices, and not those that it has heard of.
 */
#ifndef TOY_H
#define TOY_H

#include <pthread.h>
#include <stdarg.h>
#include <stdbool.h>
#include <stdint.h>
#include <stdio.h>
#include <stdlib.h>

enum { TOY_PROCESSORS = 16, TOY_PAGES = 64, TOY_ADDRESSES = TOY_PAGES * 64, TOY_LOCKS = 32, TOY_FLAGS = 32,
    TOY_NOTICES = 1 << 16 };

/* Which processor stored what to a word, in which of its intervals. */
struct toy_notice {
    int owner, interval, address;
    uint32_t value;
};

/* A set of notices: whether each is in it. */
typedef unsigned char toy_set[TOY_NOTICES];

struct toy_lock {
    bool held;
    unsigned next;    /* the ticket of who asks next */
    unsigned serving; /* the ticket of who may have it */
    toy_set handed_on; /* what its last releaser handed on */
};

struct toy_flag {
    bool is_set;
    toy_set handed_on;
};

struct toy_processor {
    int interval;
    toy_set own;     /* the notices of its own stores */
    toy_set heard;   /* those that it knows of, its own among them */
    toy_set applied; /* those whose word is in its copy */
    uint32_t copy[TOY_ADDRESSES];
    bool dirty[TOY_ADDRESSES]; /* what it has stored to in its interval */
};

/*
 * Guards all that processors share. A line of the trace is printed while it is held: a release before the lock is
 * free, an acquire after it is taken. So the trace's order is one in which it all happened.
 */
static pthread_mutex_t toy_guard = PTHREAD_MUTEX_INITIALIZER;
static pthread_cond_t toy_changed = PTHREAD_COND_INITIALIZER;

static struct toy_processor toy_processors[TOY_PROCESSORS];
static struct toy_notice toy_notices[TOY_NOTICES];
static struct toy_lock toy_locks[TOY_LOCKS];
static struct toy_flag toy_flags[TOY_FLAGS];
static toy_set toy_gathered[2]; /* what the arrivals of an even and of an odd episode hand on */
static int toy_arrivals[TOY_PROCESSORS];
static int toy_processor_count, toy_words, toy_addresses, toy_notice_count, toy_events;
static bool toy_is_stale; /* has the bug */

static void toy_fail(const char *what)
{
    fprintf(stderr, "toy: %s\n", what);
    exit(EXIT_FAILURE);
}

static void toy_begin(int processors, int pages, int words, int locks, int flags)
{
    if (processors > TOY_PROCESSORS || pages > TOY_PAGES || pages * words > TOY_ADDRESSES || locks > TOY_LOCKS ||
        flags > TOY_FLAGS)
        toy_fail("these sizes are too large");
    toy_processor_count = processors;
    toy_words = words;
    toy_addresses = pages * words;
    printf("cluster %d %d %d %d", processors, pages, words, locks);
    printf(flags ? " %d\n" : "\n", flags);
}

/* Prints the next line of the trace. The guard is held. */
static void toy_trace(int processor, const char *format, ...)
{
    va_list numbers;

    printf("event %d %d ", toy_events++, processor);
    va_start(numbers, format);
    vprintf(format, numbers);
    va_end(numbers);
    putchar('\n');
}

static void toy_join(unsigned char *into, const unsigned char *other)
{
    for (int i = 0; i < toy_notice_count; i++)
        into[i] |= other[i];
}

/* Makes notices of what was stored in the interval, and begins the next one. The guard is held. */
static void toy_close_interval(int processor)
{
    struct toy_processor *self = &toy_processors[processor];

    for (int address = 0; address < toy_addresses; address++) {
        if (!self->dirty[address])
            continue;
        if (toy_notice_count == TOY_NOTICES)
            toy_fail("too many notices");
        int notice = toy_notice_count++;
        toy_notices[notice] = (struct toy_notice){processor, self->interval, address, self->copy[address]};
        self->own[notice] = self->heard[notice] = self->applied[notice] = 1;
        self->dirty[address] = false;
    }
    self->interval++;
}

/*
 * Brings the copy of a page up to date, if it is stale, and traces what that brought. The guard is held. No word of
 * that copy is dirty then: an interval is closed before others' notices are heard of, and a store fetches first.
 */
static void toy_fetch(int processor, int page)
{
    struct toy_processor *self = &toy_processors[processor];
    int words = 0, records = 0, writers = 0;
    bool seen[TOY_PROCESSORS] = {false};
    int last[TOY_PROCESSORS] = {0};

    for (int i = 0; i < toy_notice_count; i++) {
        const struct toy_notice *it = &toy_notices[i];
        if (!self->heard[i] || self->applied[i] || it->address / toy_words != page)
            continue;
        self->copy[it->address] = it->value;
        self->applied[i] = 1;
        /* Notices of one interval stand together, those of one owner in the order of their intervals. */
        words++;
        writers += !seen[it->owner];
        records += !seen[it->owner] || last[it->owner] != it->interval;
        seen[it->owner] = true;
        last[it->owner] = it->interval;
    }
    if (words > 0)
        toy_trace(processor, "fetch %d %d %d %d", page, writers, records, words);
}

static uint32_t toy_load(int processor, int address)
{
    pthread_mutex_lock(&toy_guard);
    toy_fetch(processor, address / toy_words);
    uint32_t value = toy_processors[processor].copy[address];
    toy_trace(processor, "load %d %lu", address, (unsigned long)value);
    pthread_mutex_unlock(&toy_guard);
    return value;
}

static void toy_store(int processor, int address, uint32_t value)
{
    pthread_mutex_lock(&toy_guard);
    toy_fetch(processor, address / toy_words);
    toy_processors[processor].copy[address] = value;
    toy_processors[processor].dirty[address] = true;
    toy_trace(processor, "store %d %lu", address, (unsigned long)value);
    pthread_mutex_unlock(&toy_guard);
}

static void toy_acquire(int processor, int number)
{
    struct toy_lock *lock = &toy_locks[number];

    pthread_mutex_lock(&toy_guard);
    toy_close_interval(processor);
    toy_trace(processor, "ask %d", number);
    unsigned ticket = lock->next++;
    while (lock->held || lock->serving != ticket)
        pthread_cond_wait(&toy_changed, &toy_guard);
    lock->held = true;
    toy_join(toy_processors[processor].heard, lock->handed_on);
    toy_trace(processor, "acquire %d", number);
    pthread_mutex_unlock(&toy_guard);
}

static void toy_release(int processor, int number)
{
    struct toy_processor *self = &toy_processors[processor];
    struct toy_lock *lock = &toy_locks[number];

    pthread_mutex_lock(&toy_guard);
    toy_close_interval(processor);
    toy_trace(processor, "release %d", number);
    for (int i = 0; i < toy_notice_count; i++)
        lock->handed_on[i] = toy_is_stale ? self->own[i] : self->heard[i];
    lock->held = false;
    lock->serving++;
    pthread_cond_broadcast(&toy_changed);
    pthread_mutex_unlock(&toy_guard);
}

static void toy_arrive(int processor)
{
    pthread_mutex_lock(&toy_guard);
    toy_close_interval(processor);
    toy_trace(processor, "arrive");
    toy_join(toy_gathered[toy_arrivals[processor] % 2], toy_processors[processor].heard);
    toy_arrivals[processor]++;
    pthread_cond_broadcast(&toy_changed);
    pthread_mutex_unlock(&toy_guard);
}

static bool toy_have_all_arrived(int episode)
{
    for (int other = 0; other < toy_processor_count; other++)
        if (toy_arrivals[other] <= episode)
            return false;
    return true;
}

static void toy_depart(int processor)
{
    pthread_mutex_lock(&toy_guard);
    int episode = toy_arrivals[processor] - 1;
    while (!toy_have_all_arrived(episode))
        pthread_cond_wait(&toy_changed, &toy_guard);
    toy_join(toy_processors[processor].heard, toy_gathered[episode % 2]);
    toy_trace(processor, "depart");
    pthread_mutex_unlock(&toy_guard);
}

static inline void toy_set_flag(int processor, int number)
{
    pthread_mutex_lock(&toy_guard);
    toy_close_interval(processor);
    toy_trace(processor, "set %d", number);
    toy_join(toy_flags[number].handed_on, toy_processors[processor].heard);
    toy_flags[number].is_set = true;
    pthread_cond_broadcast(&toy_changed);
    pthread_mutex_unlock(&toy_guard);
}

static inline void toy_await_flag(int processor, int number)
{
    pthread_mutex_lock(&toy_guard);
    toy_close_interval(processor);
    toy_trace(processor, "watch %d", number);
    while (!toy_flags[number].is_set)
        pthread_cond_wait(&toy_changed, &toy_guard);
    toy_join(toy_processors[processor].heard, toy_flags[number].handed_on);
    toy_trace(processor, "await %d", number);
    pthread_mutex_unlock(&toy_guard);
}

#endif
