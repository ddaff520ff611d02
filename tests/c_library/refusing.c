/* Makes each call with one request for memory refused after the other. The call has to answer CEVANDLE_NO_MEMORY and to write
 * nothing, or to come to what it comes to otherwise, and to give back all that it had. It is linked with malloc, realloc and
 * free wrapped (-Wl,--wrap=NAME). Each trial that fails is a line; the last line is `N passed, M failed`. */
#include "trials.h"

#include <limits.h>

void *__real_malloc(size_t bytes);
void *__real_realloc(void *at, size_t bytes);
void __real_free(void *at);
void *__wrap_malloc(size_t bytes);
void *__wrap_realloc(void *at, size_t bytes);
void __wrap_free(void *at);

/* How many requests are granted before one is refused, how many were made, and how many blocks aren't given back. */
static long granted, requests, blocks;

static int is_refused(void)
{
    return requests++ == granted;
}

void *__wrap_malloc(size_t bytes)
{
    void *at = is_refused() ? NULL : __real_malloc(bytes);
    blocks += at != NULL;
    return at;
}

void *__wrap_realloc(void *at, size_t bytes)
{
    void *moved = is_refused() ? NULL : __real_realloc(at, bytes);
    blocks += at == NULL && moved != NULL;
    return moved;
}

void __wrap_free(void *at)
{
    blocks -= at != NULL;
    __real_free(at);
}

static const cevandle_sizes SIZES = {2, 1, 1, 1, 0};
static const cevandle_event EVENTS[] = {{0, CEVANDLE_ASK, 0, 0, 0, 0, 0},
                                        {0, CEVANDLE_ACQUIRE, 0, 0, 0, 0, 0},
                                        {0, CEVANDLE_STORE, 0, 9, 0, 0, 0},
                                        {1, CEVANDLE_STORE, 0, 7, 0, 0, 0}};
static const char SCRIPT[]
    = "cluster 2 1 2 1\np 0\nacquire 0\nadd 0 1\nrelease 0\np 1\nacquire 0\nadd 0 2\nrelease 0\nload 1\nshow 0\n";
static const char RACY[] = "cluster 2 1 1 0 1\np 0\nstore 0 1\nset 0\np 1\nload 0\nawait 0\nshow 0\n";

/* All that the calls write. */
typedef struct written {
    cevandle_verdict verdict;
    cevandle_locksets_found locksets;
    cevandle_word words[1];
    cevandle_race race;
    uint32_t memory[1], replays;
    cevandle_exploration found;
    cevandle_script_fault fault;
} written;

static uint32_t judges(written *to)
{
    const cevandle_rules rules = {CEVANDLE_LAZY_RELEASE, 0, 0};
    return cevandle_judge(SIZES, rules, EVENTS, 4, &to->verdict);
}

/* Two sections of one lock, and an access without it. */
static uint32_t locksets(written *to)
{
    static const cevandle_event forgets[] = {{0, CEVANDLE_ASK, 0, 0, 0, 0, 0},   {0, CEVANDLE_ACQUIRE, 0, 0, 0, 0, 0},
                                             {0, CEVANDLE_STORE, 0, 9, 0, 0, 0}, {0, CEVANDLE_RELEASE, 0, 0, 0, 0, 0},
                                             {1, CEVANDLE_ASK, 0, 0, 0, 0, 0},   {1, CEVANDLE_ACQUIRE, 0, 0, 0, 0, 0},
                                             {1, CEVANDLE_STORE, 0, 7, 0, 0, 0}, {1, CEVANDLE_RELEASE, 0, 0, 0, 0, 0},
                                             {0, CEVANDLE_ASK, 0, 0, 0, 0, 0},   {0, CEVANDLE_ACQUIRE, 0, 0, 0, 0, 0},
                                             {0, CEVANDLE_RELEASE, 0, 0, 0, 0, 0}, {0, CEVANDLE_LOAD, 0, 7, 0, 0, 0}};
    const cevandle_rules rules = {CEVANDLE_RACE_FREE, 0, 0};
    return cevandle_locksets(SIZES, rules, CEVANDLE_ALL_WORDS, forgets, 12, to->words, 1, &to->locksets);
}

static uint32_t races(written *to)
{
    return cevandle_first_race(SIZES, EVENTS, 4, &to->race);
}

static uint32_t replays(written *to)
{
    return cevandle_replay(SIZES, EVENTS, 4, to->memory, 1, &to->replays);
}

static uint32_t explores(written *to)
{
    return cevandle_explore(SCRIPT, sizeof SCRIPT - 1, 1000, &to->found, &to->fault);
}

static uint32_t explores_racy(written *to)
{
    return cevandle_explore(RACY, sizeof RACY - 1, 1000, &to->found, &to->fault);
}

/* Tries a call with each of its requests refused in turn. Where it then asks for less and gets that, it has to write the
 * same. */
static void refuse_each(const char *what, uint32_t (*call)(written *))
{
    written all, to;
    int refused = 0;
    fill(&all, sizeof all);
    granted = LONG_MAX;
    count(what, call(&all) == CEVANDLE_DONE && blocks == 0);
    granted = 0;
    do {
        fill(&to, sizeof to);
        requests = 0;
        const uint32_t code = call(&to);
        count(what, blocks == 0);
        count(what, code == CEVANDLE_DONE ? memcmp(&to, &all, sizeof to) == 0
                                          : code == CEVANDLE_NO_MEMORY && is_filled(&to, sizeof to));
        refused += code == CEVANDLE_NO_MEMORY;
    } while (requests > granted++);
    count(what, refused > 0);
}

int main(void)
{
    refuse_each("judge", judges);
    refuse_each("locksets", locksets);
    refuse_each("first race", races);
    refuse_each("replay", replays);
    refuse_each("explore", explores);
    refuse_each("explore a race", explores_racy);
    return counted();
}
