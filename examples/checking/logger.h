/*
 * logger.h: logs what a program of POSIX threads does, as a trace for `lrc check`.
 *
 *     trace_begin(file, 2, 8, 1, 1)  before the threads: 2 processors, 8 words, 1 lock, 1 flag
 *     trace_run(bodies, 2)           a thread for each of these bodies, as processors 0 and 1, up to their ends
 *     trace_run_all(body, 2)         2 threads of one body. A body's argument is its processor, as trace_number() is
 *     trace_thread(0)                first in a thread that the program starts itself: its processor
 *     START(child, 1, 4, body, data) starts a thread: struct trace_child child, processor 1, flags 4 and 5, body(data)
 *     JOIN(child)                    waits for its end. Both are logged as hand-overs, by the two flags
 *     LOAD(a, word)                  the value of the word with address a; STORE(a, word, value)
 *     LOCK(l, mutex)                 takes the mutex, which is lock l; UNLOCK(l, mutex)
 *     TRY_LOCK(l, mutex)             takes it if it is free: 0, or an error as pthread_mutex_trylock has
 *     WAIT(l, mutex, condition)      waits for a condition variable under lock l. To signal it needs no line
 *     TIMED_WAIT(l, mutex, condition, time)   0, or ETIMEDOUT, as pthread_cond_timedwait has
 *     BARRIER(barrier)               the one barrier, of all processors
 *     SET(f, flag), AWAIT(f, flag)   flag f: a condition that is set once, and that others wait for
 *     READ_LOCK(lock), READ_UNLOCK(lock), WRITE_LOCK(lock), WRITE_UNLOCK(lock)    a struct trace_rwlock
 *     MEET(barrier)                  a struct trace_barrier, of some processors
 *
 * With -std=c11 a program defines _GNU_SOURCE before its first include, since strict C has no barriers.
 *
 * Any number of a program's files may include this one: they write one trace. A call that can't be logged or made (a size
 * that no trace has, a thread that can't be started) ends the program with a line on standard error.
 *
 * A trace has neither read-write locks nor barriers of some processors. Two flags each stand for them, and order just what
 * they order: a flag that is set once more lets those on who await it from then on.
 *
 * Each line ends with the place in the source as its label. An access and its line are made together under one mutex, so
 * the trace's order is the order in which it all happened, as each model wants it. With a buffer for each thread in the
 * mutex's place a load may stand before the store that it read: under happens-before and sequential that is a lie.
 * The mutex also orders the accesses: what a processor would do without it, as with words that it keeps in registers,
 * isn't seen. A thread's start and end are hand-overs: START and JOIN log them. The bodies of trace_run begin and end
 * with no hand-over, so what main does before and after is not to be logged.
 */
#ifndef LOGGER_H
#define LOGGER_H

#include <pthread.h>
#include <stdarg.h>
#include <stdint.h>
#include <stdio.h>
#include <stdlib.h>
#include <time.h>

/* What a trace may have. */
enum { TRACE_MOST_PROCESSORS = 256, TRACE_MOST_WORDS = 1 << 20, TRACE_MOST_LOCKS = 1 << 16, TRACE_MOST_FLAGS = 1 << 16 };

struct trace_flag {
    pthread_mutex_t mutex;
    pthread_cond_t changed;
    int is_set;
};

#define TRACE_FLAG_INIT {PTHREAD_MUTEX_INITIALIZER, PTHREAD_COND_INITIALIZER, 0}

/* A read-write lock: who frees it sets a flag, as writer or as reader. A reader awaits the writers', a writer both. */
struct trace_rwlock {
    pthread_rwlock_t lock;
    int written, read;
    int is_written, is_read;
};

#define TRACE_RWLOCK_INIT(written, read) {PTHREAD_RWLOCK_INITIALIZER, written, read, 0, 0}

/* A barrier of `count` processors: flags `flag` and `flag + 1` stand for its episodes in turn. */
struct trace_barrier {
    pthread_barrier_t barrier;
    int count, flag, arrivals;
};

typedef void *trace_body(void *);

/* A thread that was started: flag `flag` is set before it begins, `flag + 1` once it has ended. */
struct trace_child {
    pthread_t thread;
    int processor, flag, is_handed_on;
    trace_body *body;
    void *data;
    const char *file;
    int line;
};

/* The program's one trace: each file that includes this one has these, and the linker makes them one. */
__attribute__((weak)) pthread_mutex_t trace_guard = PTHREAD_MUTEX_INITIALIZER;
__attribute__((weak)) FILE *trace_file;
__attribute__((weak)) unsigned long trace_events;
__attribute__((weak)) int trace_processors;
__attribute__((weak)) __thread int trace_self;

/* Ends the program: what it asked for can't be. */
static inline void trace_refuse(const char *why, long number)
{
    fprintf(stderr, "logger.h: %s: %ld\n", why, number);
    exit(EXIT_FAILURE);
}

static inline void trace_refuse_beyond(const char *what, int number, int least, int most)
{
    if (number < least || number > most)
        trace_refuse(what, number);
}

static inline void trace_begin(FILE *file, int processors, int words, int locks, int flags)
{
    trace_refuse_beyond("a trace has 1 to 256 processors, and not", processors, 1, TRACE_MOST_PROCESSORS);
    trace_refuse_beyond("a trace has 1 to 2^20 words, and not", words, 1, TRACE_MOST_WORDS);
    trace_refuse_beyond("a trace has 2^16 locks at most, and not", locks, 0, TRACE_MOST_LOCKS);
    trace_refuse_beyond("a trace has 2^16 flags at most, and not", flags, 0, TRACE_MOST_FLAGS);
    trace_file = file;
    trace_processors = processors;
    fprintf(file, flags ? "cluster %d 1 %d %d %d\n" : "cluster %d 1 %d %d\n", processors, words, locks, flags);
}

static inline void trace_thread(int processor)
{
    trace_refuse_beyond("there is no such processor", processor, 0, trace_processors - 1);
    trace_self = processor;
}

/* The processor that this thread is. */
static inline int trace_number(void)
{
    return trace_self;
}

/* Prints an event's line, with its label. The guard is held. */
static inline void trace_line(const char *file, int line, const char *format, ...)
{
    va_list numbers;

    fprintf(trace_file, "event %lu %d ", trace_events++, trace_self);
    va_start(numbers, format);
    vfprintf(trace_file, format, numbers);
    va_end(numbers);
    fprintf(trace_file, "  %s:%d\n", file, line);
}

static inline uint32_t trace_load(const char *file, int line, int address, const uint32_t *word)
{
    pthread_mutex_lock(&trace_guard);
    uint32_t value = *word;
    trace_line(file, line, "load %d %lu", address, (unsigned long)value);
    pthread_mutex_unlock(&trace_guard);
    return value;
}

static inline void trace_store(const char *file, int line, int address, uint32_t *word, uint32_t value)
{
    pthread_mutex_lock(&trace_guard);
    *word = value;
    trace_line(file, line, "store %d %lu", address, (unsigned long)value);
    pthread_mutex_unlock(&trace_guard);
}

/* Prints a line of an event that is no access. */
static inline void trace_event(const char *file, int line, const char *name, int number)
{
    pthread_mutex_lock(&trace_guard);
    trace_line(file, line, number < 0 ? "%s" : "%s %d", name, number);
    pthread_mutex_unlock(&trace_guard);
}

/* What lets others on is logged before they are let on, and what takes that after it has come. */
#define HERE __FILE__, __LINE__
#define START(child, processor, flag, body, data) trace_start(HERE, &(child), processor, flag, body, data)
#define JOIN(child) trace_join(HERE, &(child))
#define LOAD(address, word) trace_load(HERE, address, &(word))
#define STORE(address, word, value) trace_store(HERE, address, &(word), value)
#define LOCK(lock, mutex) \
    (trace_event(HERE, "ask", lock), pthread_mutex_lock(&(mutex)), trace_event(HERE, "acquire", lock))
#define TRY_LOCK(lock, mutex) trace_try_lock(HERE, lock, &(mutex))
#define UNLOCK(lock, mutex) (trace_event(HERE, "release", lock), pthread_mutex_unlock(&(mutex)))
#define WAIT(lock, mutex, condition) trace_wait_under(HERE, lock, &(mutex), &(condition), NULL)
#define TIMED_WAIT(lock, mutex, condition, time) trace_wait_under(HERE, lock, &(mutex), &(condition), &(time))
#define BARRIER(barrier) \
    (trace_event(HERE, "arrive", -1), pthread_barrier_wait(&(barrier)), trace_event(HERE, "depart", -1))
#define SET(number, flag) (trace_event(HERE, "set", number), trace_raise(&(flag)))
#define AWAIT(number, flag) \
    (trace_event(HERE, "watch", number), trace_wait(&(flag)), trace_event(HERE, "await", number))
#define READ_LOCK(lock) trace_read_lock(HERE, &(lock))
#define READ_UNLOCK(lock) trace_read_unlock(HERE, &(lock))
#define WRITE_LOCK(lock) trace_write_lock(HERE, &(lock))
#define WRITE_UNLOCK(lock) trace_write_unlock(HERE, &(lock))
#define MEET(barrier) trace_meet(HERE, &(barrier))

static inline void trace_raise(struct trace_flag *flag)
{
    pthread_mutex_lock(&flag->mutex);
    flag->is_set = 1;
    pthread_cond_broadcast(&flag->changed);
    pthread_mutex_unlock(&flag->mutex);
}

static inline void trace_wait(struct trace_flag *flag)
{
    pthread_mutex_lock(&flag->mutex);
    while (!flag->is_set)
        pthread_cond_wait(&flag->changed, &flag->mutex);
    pthread_mutex_unlock(&flag->mutex);
}

/* Logs that a flag is set which stands for something else. */
static inline void trace_hand_on(const char *file, int line, int flag, int *is_set)
{
    pthread_mutex_lock(&trace_guard);
    *is_set = 1;
    trace_line(file, line, "set %d", flag);
    pthread_mutex_unlock(&trace_guard);
}

/* Logs that it is awaited, if it was ever set. */
static inline void trace_take(const char *file, int line, int flag, const int *is_set)
{
    pthread_mutex_lock(&trace_guard);
    if (*is_set) {
        trace_line(file, line, "watch %d", flag);
        trace_line(file, line, "await %d", flag);
    }
    pthread_mutex_unlock(&trace_guard);
}

/* Logs that a lock was taken which is held now. */
static inline void trace_taken(const char *file, int line, int lock)
{
    pthread_mutex_lock(&trace_guard);
    trace_line(file, line, "ask %d", lock);
    trace_line(file, line, "acquire %d", lock);
    pthread_mutex_unlock(&trace_guard);
}

static inline int trace_try_lock(const char *file, int line, int lock, pthread_mutex_t *mutex)
{
    int fault = pthread_mutex_trylock(mutex);

    if (!fault)
        trace_taken(file, line, lock);
    return fault;
}

/* Waits for the condition, which frees the lock and takes it again; up to this time, if there is one. */
static inline int trace_wait_under(const char *file, int line, int lock, pthread_mutex_t *mutex, pthread_cond_t *condition,
    const struct timespec *time)
{
    trace_event(file, line, "release", lock);
    int fault = time ? pthread_cond_timedwait(condition, mutex, time) : pthread_cond_wait(condition, mutex);
    trace_taken(file, line, lock);
    return fault;
}

static inline void trace_read_lock(const char *file, int line, struct trace_rwlock *lock)
{
    pthread_rwlock_rdlock(&lock->lock);
    trace_take(file, line, lock->written, &lock->is_written);
}

static inline void trace_read_unlock(const char *file, int line, struct trace_rwlock *lock)
{
    trace_hand_on(file, line, lock->read, &lock->is_read);
    pthread_rwlock_unlock(&lock->lock);
}

static inline void trace_write_lock(const char *file, int line, struct trace_rwlock *lock)
{
    pthread_rwlock_wrlock(&lock->lock);
    trace_take(file, line, lock->written, &lock->is_written);
    trace_take(file, line, lock->read, &lock->is_read);
}

static inline void trace_write_unlock(const char *file, int line, struct trace_rwlock *lock)
{
    trace_hand_on(file, line, lock->written, &lock->is_written);
    pthread_rwlock_unlock(&lock->lock);
}

static inline void trace_meet_begin(struct trace_barrier *barrier, int count, int flag)
{
    if (pthread_barrier_init(&barrier->barrier, NULL, count))
        trace_refuse("no barrier has so many processors", count);
    barrier->count = count;
    barrier->flag = flag;
    barrier->arrivals = 0;
}

/* An episode's flag is set again in the next but one, which begins after all have left this one. */
static inline void trace_meet(const char *file, int line, struct trace_barrier *barrier)
{
    int always = 1;

    pthread_mutex_lock(&trace_guard);
    int flag = barrier->flag + barrier->arrivals++ / barrier->count % 2;
    trace_line(file, line, "set %d", flag);
    pthread_mutex_unlock(&trace_guard);
    pthread_barrier_wait(&barrier->barrier);
    trace_take(file, line, flag, &always);
}

/* What a thread does that was started: if it is handed on, it takes its start and hands on its end. */
static inline void *trace_child_runs(void *given)
{
    struct trace_child *child = (struct trace_child *)given;

    trace_thread(child->processor);
    if (child->is_handed_on)
        trace_take(child->file, child->line, child->flag, &child->is_handed_on);
    void *answer = child->body(child->data);
    if (child->is_handed_on)
        trace_event(child->file, child->line, "set", child->flag + 1);
    return answer;
}

static inline void trace_create(struct trace_child *child)
{
    if (pthread_create(&child->thread, NULL, trace_child_runs, child))
        trace_refuse("no thread could be started for processor", child->processor);
}

static inline void trace_start(const char *file, int line, struct trace_child *child, int processor, int flag,
    trace_body *body, void *data)
{
    trace_refuse_beyond("there is no such processor", processor, 0, trace_processors - 1);
    child->processor = processor;
    child->flag = flag;
    child->body = body;
    child->data = data;
    child->file = file;
    child->line = line;
    trace_hand_on(file, line, flag, &child->is_handed_on);
    trace_create(child);
}

/* Answers what the body returned. */
static inline void *trace_join(const char *file, int line, struct trace_child *child)
{
    void *answer = NULL;

    pthread_join(child->thread, &answer);
    trace_take(file, line, child->flag + 1, &child->is_handed_on);
    return answer;
}

/* Runs the threads; body `at`, or the one body if `is_one`, is that of processor `at`. */
static inline void trace_run_threads(trace_body *const bodies[], int is_one, int processors)
{
    trace_refuse_beyond("a run has 1 to as many threads as processors, and not", processors, 1, trace_processors);
    struct trace_child *children = (struct trace_child *)calloc((size_t)processors, sizeof *children);

    if (!children)
        trace_refuse("no memory for threads", processors);
    for (int at = 0; at < processors; at++) {
        children[at].processor = at;
        children[at].body = bodies[is_one ? 0 : at];
        children[at].data = (void *)(intptr_t)at;
        trace_create(&children[at]);
    }
    for (int at = 0; at < processors; at++)
        pthread_join(children[at].thread, NULL);
    free(children);
}

static inline void trace_run(trace_body *const bodies[], int processors)
{
    trace_run_threads(bodies, 0, processors);
}

static inline void trace_run_all(trace_body *body, int processors)
{
    trace_run_threads(&body, 1, processors);
}

#endif
