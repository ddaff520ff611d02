/*
 * buggy: runs a script on a small memory under lazy release consistency, and prints a trace. In each mode but `right` the
 * memory has one bug that such memories have had.
 *
 *     cc -pthread -o buggy examples/adapters/buggy.c
 *     ./lrc draw guarded --seed 1 | ./buggy own_notices | ./lrc check
 *
 * Each processor has a copy of every page. Its first store to a clean page keeps a twin of it. When it hands on (a release,
 * an arrival, a set), each word that isn't as in the twin goes into a record, and all these records are an interval. What is
 * handed on is a timestamp: how many intervals of each processor one has heard of. Who takes it puts the records that it
 * hasn't heard of on the list of their page, and applies them when it next accesses that page.
 */
#include "script.h"

enum { MOST_WORDS = 1 << 12, MOST_PAGES = 64, MOST_LOCKS = 32, MOST_FLAGS = 32, MOST_RECORDS = 1 << 18 };

static const char *const modes[] = {
    "right",
    "own_notices",    /* a release hands on its own intervals alone */
    "lost_if_dirty",  /* a record of a dirty page is forgotten */
    "coming_order",   /* records are applied by the numbers of their processors */
    "old_timestamp",  /* who takes a lock keeps its old timestamp */
    "clears_dirty",   /* records that are applied undo the stores since the twin */
    "all_but_last",   /* the last arrival isn't handed on */
    "late_twin",      /* the twin is made after the store */
    "second_setter",  /* a flag that is set hands on no later setter's past */
};
enum mode { RIGHT, OWN_NOTICES, LOST_IF_DIRTY, COMING_ORDER, OLD_TIMESTAMP, CLEARS_DIRTY, ALL_BUT_LAST, LATE_TWIN,
    SECOND_SETTER, MODES };

struct timestamp {
    int heard[MOST_PROCESSORS];
};

/* A word that an interval of a processor stored. Records stand in the order in which their intervals were closed. */
struct record {
    int owner, interval, address;
    uint32_t value;
};

struct processor {
    struct timestamp time;
    uint32_t copy[MOST_WORDS], twin[MOST_WORDS];
    int is_dirty[MOST_PAGES];
    int *missing[MOST_PAGES], missing_count[MOST_PAGES];
};

struct lock {
    struct timestamp time;
    int is_held;
    unsigned next, serving; /* tickets: who asks next, who may have it */
};

struct flag {
    struct timestamp time;
    int is_set;
};

/* Guards all that processors share, and the trace, so its order is the order in which it all happened. */
static pthread_mutex_t guard = PTHREAD_MUTEX_INITIALIZER;
static pthread_cond_t changed = PTHREAD_COND_INITIALIZER;
static enum mode mode;
static struct processor processors[MOST_PROCESSORS];
static struct lock locks[MOST_LOCKS];
static struct flag flags[MOST_FLAGS];
static struct record records[MOST_RECORDS];
static int record_count, arrivals, events;
static struct timestamp gathered[2]; /* by even and odd episodes of the barrier */

static void refuse_mode(void)
{
    fprintf(stderr, "usage: buggy");
    for (int at = 0; at < MODES; at++)
        fprintf(stderr, " %s %s", at ? "|" : "", modes[at]);
    fprintf(stderr, "\n");
    exit(EXIT_FAILURE);
}

static void trace(int processor, const char *what, int number)
{
    printf(number < 0 ? "event %d %d %s\n" : "event %d %d %s %d\n", events++, processor, what, number);
}

static void join(struct timestamp *into, const struct timestamp *other)
{
    for (int at = 0; at < script.processors; at++)
        if (into->heard[at] < other->heard[at])
            into->heard[at] = other->heard[at];
}

/* Makes records of what was stored, and begins the next interval. */
static void close_interval(int number)
{
    struct processor *self = &processors[number];

    for (int address = 0; address < script.pages * script.words; address++) {
        if (!self->is_dirty[address / script.words] || self->copy[address] == self->twin[address])
            continue;
        if (record_count == MOST_RECORDS)
            exit(EXIT_FAILURE);
        records[record_count++] = (struct record){number, self->time.heard[number], address, self->copy[address]};
    }
    memset(self->is_dirty, 0, sizeof self->is_dirty);
    self->time.heard[number]++;
}

/* Puts a record on the list of its page. */
static void miss(struct processor *self, int record)
{
    int page = records[record].address / script.words;

    if (mode == LOST_IF_DIRTY && self->is_dirty[page])
        return;
    self->missing[page] = realloc(self->missing[page], (self->missing_count[page] + 1) * sizeof(int));
    if (!self->missing[page])
        exit(EXIT_FAILURE);
    self->missing[page][self->missing_count[page]++] = record;
}

static int is_news(const struct processor *self, const struct timestamp *time, int record)
{
    const struct record *it = &records[record];

    return it->interval < time->heard[it->owner] && it->interval >= self->time.heard[it->owner];
}

/* Hears of all that this timestamp has heard of. */
static void hear(int number, const struct timestamp *time)
{
    struct processor *self = &processors[number];
    int passes = mode == COMING_ORDER ? script.processors : 1;

    for (int owner = 0; owner < passes; owner++)
        for (int record = 0; record < record_count; record++)
            if (is_news(self, time, record) && (passes == 1 || records[record].owner == owner))
                miss(self, record);
    join(&self->time, time);
}

/* Brings the copy of a page up to date. */
static void fetch(struct processor *self, int page)
{
    if (mode == CLEARS_DIRTY && self->is_dirty[page] && self->missing_count[page])
        memcpy(&self->copy[page * script.words], &self->twin[page * script.words], script.words * sizeof *self->copy);
    for (int at = 0; at < self->missing_count[page]; at++) {
        const struct record *it = &records[self->missing[page][at]];
        self->copy[it->address] = self->twin[it->address] = it->value;
    }
    self->missing_count[page] = 0;
}

static void keep_twin(struct processor *self, int page)
{
    if (!self->is_dirty[page])
        memcpy(&self->twin[page * script.words], &self->copy[page * script.words], script.words * sizeof *self->twin);
    self->is_dirty[page] = 1;
}

static uint32_t load(int number, int address)
{
    pthread_mutex_lock(&guard);
    fetch(&processors[number], address / script.words);
    uint32_t value = processors[number].copy[address];
    printf("event %d %d load %d %u\n", events++, number, address, value);
    pthread_mutex_unlock(&guard);
    return value;
}

static void store(int number, int address, uint32_t value)
{
    struct processor *self = &processors[number];
    int page = address / script.words;

    pthread_mutex_lock(&guard);
    fetch(self, page);
    if (mode != LATE_TWIN)
        keep_twin(self, page);
    self->copy[address] = value;
    keep_twin(self, page);
    printf("event %d %d store %d %u\n", events++, number, address, value);
    pthread_mutex_unlock(&guard);
}

static void acquire(int number, int which)
{
    struct lock *lock = &locks[which];
    struct timestamp old = processors[number].time;

    pthread_mutex_lock(&guard);
    trace(number, "ask", which);
    unsigned ticket = lock->next++;
    while (lock->is_held || lock->serving != ticket)
        pthread_cond_wait(&changed, &guard);
    lock->is_held = 1;
    hear(number, &lock->time);
    if (mode == OLD_TIMESTAMP)
        processors[number].time = old;
    trace(number, "acquire", which);
    pthread_mutex_unlock(&guard);
}

static void release(int number, int which)
{
    struct lock *lock = &locks[which];

    pthread_mutex_lock(&guard);
    close_interval(number);
    trace(number, "release", which);
    memset(&lock->time, 0, sizeof lock->time);
    lock->time.heard[number] = processors[number].time.heard[number];
    if (mode != OWN_NOTICES)
        lock->time = processors[number].time;
    lock->is_held = 0;
    lock->serving++;
    pthread_cond_broadcast(&changed);
    pthread_mutex_unlock(&guard);
}

static void meet(int number)
{
    pthread_mutex_lock(&guard);
    close_interval(number);
    trace(number, "arrive", -1);
    int episode = arrivals++ / script.processors;
    int is_last = arrivals % script.processors == 0;
    if (arrivals % script.processors == 1 || script.processors == 1)
        memset(&gathered[episode % 2], 0, sizeof *gathered);
    if (mode != ALL_BUT_LAST || !is_last)
        join(&gathered[episode % 2], &processors[number].time);
    pthread_cond_broadcast(&changed);
    while (arrivals < (episode + 1) * script.processors)
        pthread_cond_wait(&changed, &guard);
    hear(number, &gathered[episode % 2]);
    trace(number, "depart", -1);
    pthread_mutex_unlock(&guard);
}

static void set(int number, int which)
{
    struct flag *flag = &flags[which];

    pthread_mutex_lock(&guard);
    close_interval(number);
    trace(number, "set", which);
    if (mode != SECOND_SETTER || !flag->is_set)
        join(&flag->time, &processors[number].time);
    flag->is_set = 1;
    pthread_cond_broadcast(&changed);
    pthread_mutex_unlock(&guard);
}

static void await_flag(int number, int which)
{
    struct flag *flag = &flags[which];

    pthread_mutex_lock(&guard);
    trace(number, "watch", which);
    while (!flag->is_set)
        pthread_cond_wait(&changed, &guard);
    hear(number, &flag->time);
    trace(number, "await", which);
    pthread_mutex_unlock(&guard);
}

int main(int count, char **words)
{
    while (mode < MODES && (count != 2 || strcmp(words[1], modes[mode]) != 0))
        mode++;
    if (mode == MODES)
        refuse_mode();
    read_script();
    print_sizes();
    run_script((struct memory_calls){NULL, load, store, acquire, release, meet, set, await_flag});
}
