/* cevandle.h: what of Cevandle can be called from C. docs/C.md says how to build libcevandle.a and to link it.
 *
 * No call keeps anything between two calls, waits, starts a thread, or writes but where its last arguments point. What a call
 * reads and what it writes must not overlap. Memory comes from the program's malloc, and is given back before the call returns.
 * Each call answers a cevandle_code; unless that is CEVANDLE_DONE, nothing was written, but the fault of a script.
 */
#ifndef CEVANDLE_H
#define CEVANDLE_H

#include <stddef.h>
#include <stdint.h>

#ifdef __cplusplus
extern "C" {
#endif

/* Why a call did nothing. Of several reasons the first one in this order is answered. */
enum cevandle_code {
    CEVANDLE_DONE = 0,
    CEVANDLE_BAD_SIZES = 1,  /* a size is out of range */
    CEVANDLE_BAD_RULES = 2,  /* a number of the rules has no meaning */
    CEVANDLE_BAD_ROOM = 3,   /* the memory has not just a word for each address */
    CEVANDLE_TOO_MANY = 4,   /* there are more than CEVANDLE_MOST_EVENTS events */
    CEVANDLE_BAD_EVENT = 5,  /* an event's kind is none of cevandle_kind, or a number of it is out of range */
    CEVANDLE_BAD_SCRIPT = 8, /* the text is no lawful script's: see cevandle_script_fault */
    CEVANDLE_NO_MEMORY = 6,  /* malloc refused; of a script, maybe at a line before the one with a fault */
    CEVANDLE_NULL = 7        /* a pointer is null: looked at before all others */
};

#define CEVANDLE_MOST_EVENTS (1u << 21)

/* No place, and nobody. */
#define CEVANDLE_NONE UINT64_MAX

/* The sizes of the memory: at most 16 processors, 64 pages of 64 words, 32 locks and 32 flags. Its addresses are the numbers
 * below pages times words. cevandle_judge takes up to 2^20 addresses (pages times words, each at most 2^20), 2^16 locks and
 * 2^16 flags. */
typedef struct cevandle_sizes {
    uint32_t processors, pages, words, locks, flags;
} cevandle_sizes;

/* What an event did: docs/LOGGING.md has when to log each. */
enum cevandle_kind {
    CEVANDLE_LOAD = 0,    /* number: the address; value: the word answered */
    CEVANDLE_STORE = 1,   /* number: the address; value: the word stored */
    CEVANDLE_FETCH = 2,   /* number: the page; writers, records, words: what it brought */
    CEVANDLE_ASK = 3,     /* number: the lock */
    CEVANDLE_ACQUIRE = 4, /* number: the lock */
    CEVANDLE_RELEASE = 5, /* number: the lock */
    CEVANDLE_ARRIVE = 6,  /* at the barrier */
    CEVANDLE_DEPART = 7,  /* from the barrier */
    CEVANDLE_SET = 8,     /* number: the flag */
    CEVANDLE_WATCH = 9,   /* number: the flag */
    CEVANDLE_AWAIT = 10   /* number: the flag */
};

/* An event. Fields that its kind doesn't name are not looked at. */
typedef struct cevandle_event {
    uint32_t processor; /* from 0 */
    uint32_t kind;      /* a cevandle_kind */
    uint32_t number;
    uint32_t value;
    uint32_t writers, records, words;
} cevandle_event;

/* What a load has to answer: docs/CHECKING.md, "The models". */
enum cevandle_model {
    CEVANDLE_RACE_FREE = 0,
    CEVANDLE_HAPPENS_BEFORE = 1,
    CEVANDLE_LAZY_RELEASE = 2,
    CEVANDLE_SEQUENTIAL = 3
};

/* By what a history is judged. */
typedef struct cevandle_rules {
    uint32_t model;        /* a cevandle_model */
    uint32_t lax;          /* 1 to leave out the order in which a lock is granted, and what fetches count; else 0 */
    uint32_t ends_at_race; /* 1 to end judging with the first race; else 0 */
} cevandle_rules;

/* The places of two accesses that race, from 0; CEVANDLE_NONE twice without a race. */
typedef struct cevandle_race {
    uint64_t first, second;
} cevandle_race;

/* Why an event is a lie. */
enum cevandle_why {
    CEVANDLE_NO_LIE = 0,
    CEVANDLE_UNEXPLAINED = 1,        /* a load of what it may not answer: see stores, last */
    CEVANDLE_MISCOUNTED = 2,         /* a fetch that has to count writers, records and words */
    CEVANDLE_NO_SUCH_PROCESSOR = 3,
    CEVANDLE_OUT_OF_RANGE = 4,       /* its address, page, lock or flag */
    CEVANDLE_WAITS = 5,              /* its processor waits for another event */
    CEVANDLE_ASKS_WHAT_IT_HOLDS = 6,
    CEVANDLE_NOT_ASKED = 7,          /* an acquire, depart or await without its ask, arrival or watch */
    CEVANDLE_HELD_BY = 8,            /* an acquire of a lock that `other` holds */
    CEVANDLE_ASKED_EARLIER = 9,      /* an acquire; `other` asked for the lock before, at place `earlier` */
    CEVANDLE_NOT_HELD = 10,          /* a release */
    CEVANDLE_NOT_ARRIVED = 11,       /* a departure; `other` has not arrived as often */
    CEVANDLE_NOT_SET = 12            /* an await of a flag that nobody has set */
};

/* The first event that no memory of the model makes. What has no meaning under `why` is CEVANDLE_NONE, or 0 of the counts. */
typedef struct cevandle_lie {
    uint64_t why; /* a cevandle_why */
    uint64_t place;
    uint64_t other, earlier;
    uint64_t writers, records, words;
    uint64_t stores[16]; /* the load may answer what these stored, by processor; 0 alone if none did. Under
                            CEVANDLE_HAPPENS_BEFORE, also what was stored before it and doesn't happen before it. Under
                            CEVANDLE_SEQUENTIAL each is CEVANDLE_NONE */
    uint64_t last;       /* under CEVANDLE_SEQUENTIAL alone: the load has to answer what this one stored, or 0 if it is
                            CEVANDLE_NONE */
} cevandle_lie;

enum cevandle_judgement {
    CEVANDLE_FAITHFUL = 0, /* the loads answer right; whether two accesses race, race.second says */
    CEVANDLE_UNFAITHFUL = 1,
    CEVANDLE_ENDED_AT_RACE = 2 /* with ends_at_race alone; what stands before race.second is faithful */
};

/* What events cost, by the counts of their own fetches. */
typedef struct cevandle_traffic {
    uint64_t messages, records, words;
} cevandle_traffic;

typedef struct cevandle_verdict {
    uint64_t verdict; /* a cevandle_judgement */
    uint64_t judged;  /* how many events: all, or those up to the lie or the race and with it */
    cevandle_lie lie;
    cevandle_race race; /* of those judged: the least second place, and with it the greatest first one */
    cevandle_traffic traffic; /* of a faithful history; else zeros */
    uint64_t unjudged; /* loads of a faithful history: under CEVANDLE_RACE_FREE those from race.second on */
} cevandle_verdict;

/* Which words cevandle_locksets tells. */
enum cevandle_lockset_words {
    CEVANDLE_FORGOTTEN = 0, /* those whose lock was forgotten somewhere */
    CEVANDLE_ALL_WORDS = 1  /* those that never have one, too: they are handed over */
};

/* An access of a word: its place, from 0, and who made it. */
typedef struct cevandle_place {
    uint64_t place, processor;
} cevandle_place;

/* Two accesses that hold a lock in common, and the lock; CEVANDLE_NONE in each field where no two do. */
typedef struct cevandle_guarded {
    cevandle_place first, second;
    uint64_t lock;
} cevandle_guarded;

/* A word that needs a lock and has none. */
typedef struct cevandle_word {
    uint64_t address;
    cevandle_place first, second; /* two accesses that hold no lock in common */
    cevandle_guarded guarded;     /* two that do, if there are such: somebody forgot the lock */
} cevandle_word;

typedef struct cevandle_locksets_found {
    cevandle_verdict verdict;
    uint64_t words; /* how many there are: of a faithful history without a race; else 0 */
} cevandle_locksets_found;

/* What is wrong with a script's line: docs/SCRIPTS.md has each. Of several faults of one line the first one in this order is
 * told, but for UNEVEN, which is told of a text without any other. */
enum cevandle_script_fault_kind {
    CEVANDLE_SCRIPT_TRUNCATED = 1,    /* the text ends where a line has to be, or its last line has no line feed */
    CEVANDLE_SCRIPT_BAD_LINE = 2,     /* a word, or the number of words, that isn't allowed there */
    CEVANDLE_SCRIPT_BAD_NUMBER = 3,
    CEVANDLE_SCRIPT_BAD_SIZE = 4,     /* of the cluster line */
    CEVANDLE_SCRIPT_OUT_OF_RANGE = 5, /* an address */
    CEVANDLE_SCRIPT_BAD_LOCK = 6,
    CEVANDLE_SCRIPT_BAD_FLAG = 7,
    CEVANDLE_SCRIPT_ALREADY_HELD = 8, /* an acquire of a lock that the section holds */
    CEVANDLE_SCRIPT_NOT_HELD = 9,     /* a release of a lock that it doesn't hold */
    CEVANDLE_SCRIPT_TOO_LONG = 10,    /* instruction 10,001 of a section, or address 65 of the show line */
    CEVANDLE_SCRIPT_UNEVEN = 11       /* a section has another number of barriers than section 0 */
};

/* The first line of a text that keeps it from being a lawful script's. */
typedef struct cevandle_script_fault {
    uint64_t line; /* from 1 */
    uint64_t kind; /* a cevandle_script_fault_kind */
} cevandle_script_fault;

/* Whether a script races. */
enum cevandle_racing {
    CEVANDLE_NEVER_RACES = 0,   /* no two accesses race, whatever the order; if the script's text shows that, so it is told
                                   also of a search that was given up */
    CEVANDLE_RACES = 1,         /* some order races */
    CEVANDLE_RACES_UNKNOWN = 2  /* no race was met, and the search was given up */
};

/* Whether it can hang. */
enum cevandle_hanging {
    CEVANDLE_NEVER_HANGS = 0,   /* whatever the order, each processor gets to its end */
    CEVANDLE_HANGS = 1,         /* some order can't go on */
    CEVANDLE_HANGS_UNKNOWN = 2  /* no hang was met, and the search was given up, or ended with a race */
};

/* An access of a schedule on one flat memory; CEVANDLE_NONE in each field where there is none. */
typedef struct cevandle_access {
    uint64_t place; /* in the schedule, from 0 */
    uint64_t processor;
    uint64_t kind;  /* CEVANDLE_LOAD or CEVANDLE_STORE */
    uint64_t address;
    uint64_t value; /* the word answered or stored */
} cevandle_access;

/* Two accesses of a schedule that race. */
typedef struct cevandle_conflict {
    cevandle_access first, second;
} cevandle_conflict;

/* What a processor waits for: the kind of the event that would end its wait, and the lock or the flag. It is CEVANDLE_ACQUIRE,
 * CEVANDLE_AWAIT, or CEVANDLE_DEPART, with the number CEVANDLE_NONE; CEVANDLE_NONE twice where it doesn't wait. */
typedef struct cevandle_wait {
    uint64_t kind, number;
} cevandle_wait;

/* What is found of all schedules of a script on one flat memory: docs/SCRIPTS.md, "Every schedule". */
typedef struct cevandle_exploration {
    uint64_t verdict;  /* a cevandle_racing */
    uint64_t hangs;    /* a cevandle_hanging */
    uint64_t states;   /* how many were found */
    uint64_t outcomes; /* how many different words are shown at the end of whole runs that were met */
    uint64_t are_all;  /* 1 if whole runs have no others, else 0 */
    cevandle_conflict race;  /* with CEVANDLE_RACES: of some schedule the first race, with which it ends */
    cevandle_wait waits[16]; /* with CEVANDLE_HANGS: what each processor waits for at the end of some schedule */
} cevandle_exploration;

/* What the library has: as the calls below, but no pointer may be null. A caller without this header calls these. */
uint32_t cevandle_judge_nonnull(cevandle_sizes sizes, cevandle_rules rules, const cevandle_event *events, size_t count,
                                cevandle_verdict *verdict);
uint32_t cevandle_locksets_nonnull(cevandle_sizes sizes, cevandle_rules rules, uint32_t which, const cevandle_event *events,
                                   size_t count, cevandle_word *words, size_t room, cevandle_locksets_found *found);
uint32_t cevandle_first_race_nonnull(cevandle_sizes sizes, const cevandle_event *events, size_t count, cevandle_race *race);
uint32_t cevandle_replay_nonnull(cevandle_sizes sizes, const cevandle_event *events, size_t count, uint32_t *memory,
                                 size_t room, uint32_t *replays);
uint32_t cevandle_explore_nonnull(const uint8_t *script, size_t length, size_t most, cevandle_exploration *found,
                                  cevandle_script_fault *fault);

/* Stands in for an array of no items, which may be null. */
static const cevandle_event cevandle_no_events[1] = {{0, 0, 0, 0, 0, 0, 0}};

/* Judges a history: whether a memory of the model can make it, and if not, which event is the first lie, and why. `events`
 * may be null if count is 0. Numbers of events may be any: an event that names what isn't there is a lie, not an error.
 * Answers BAD_SIZES, BAD_RULES, TOO_MANY, BAD_EVENT (a kind alone), NO_MEMORY or NULL, else DONE. */
static inline uint32_t cevandle_judge(cevandle_sizes sizes, cevandle_rules rules, const cevandle_event *events,
                                      size_t count, cevandle_verdict *verdict)
{
    if ((events == NULL && count != 0) || verdict == NULL) {
        return CEVANDLE_NULL;
    }
    return cevandle_judge_nonnull(sizes, rules, events == NULL ? cevandle_no_events : events, count, verdict);
}

/* Judges a history as cevandle_judge does, and finds the words of it that need a lock and have none, as `lrc check --locksets`
 * tells them: docs/CHECKING.md, "A lock forgotten". `which` is a cevandle_lockset_words. `found` has how many there are, and
 * `words` the first of them, by rising address, as many as there is `room` for. `events` may be null if count is 0, and `words` if
 * room is 0. Answers as cevandle_judge, else DONE. */
static inline uint32_t cevandle_locksets(cevandle_sizes sizes, cevandle_rules rules, uint32_t which,
                                         const cevandle_event *events, size_t count, cevandle_word *words, size_t room,
                                         cevandle_locksets_found *found)
{
    cevandle_word none;
    if ((events == NULL && count != 0) || (words == NULL && room != 0) || found == NULL) {
        return CEVANDLE_NULL;
    }
    return cevandle_locksets_nonnull(sizes, rules, which, events == NULL ? cevandle_no_events : events, count,
                                     words == NULL ? &none : words, room, found);
}

/* Finds the first race of any events, whether a memory can make them or not: the least second place, and with it the least
 * first one. `events` may be null if count is 0. Answers BAD_SIZES, TOO_MANY, BAD_EVENT (a kind; a processor, address, page,
 * lock or flag that isn't within the sizes), NO_MEMORY or NULL, else DONE. */
static inline uint32_t cevandle_first_race(cevandle_sizes sizes, const cevandle_event *events, size_t count,
                                           cevandle_race *race)
{
    if ((events == NULL && count != 0) || race == NULL) {
        return CEVANDLE_NULL;
    }
    return cevandle_first_race_nonnull(sizes, events == NULL ? cevandle_no_events : events, count, race);
}

/* Does the events to one flat memory of zeros, in their order. If each load answers its word there, *replays is 1 and `memory`
 * has the words at the end, else *replays is 0 and `memory` is as before. `room`, the words of `memory`, is pages times words.
 * `events` may be null if count is 0. Answers BAD_SIZES, BAD_ROOM, TOO_MANY, BAD_EVENT (as cevandle_first_race), NO_MEMORY or
 * NULL, else DONE. */
static inline uint32_t cevandle_replay(cevandle_sizes sizes, const cevandle_event *events, size_t count, uint32_t *memory,
                                       size_t room, uint32_t *replays)
{
    if ((events == NULL && count != 0) || memory == NULL || replays == NULL) {
        return CEVANDLE_NULL;
    }
    return cevandle_replay_nonnull(sizes, events == NULL ? cevandle_no_events : events, count, memory, room, replays);
}

/* Looks at all schedules of the script with this text, of `length` bytes: whether it can race, and whether it can hang. The
 * search ends with the first race, and is given up once more than `most` states are found, or more than fit: those that have
 * 2^27 words together. A million states take some 1 GB, and no search takes more than 2. `script` may be null if length is 0.
 * Answers BAD_SCRIPT, NO_MEMORY or NULL, else DONE. With BAD_SCRIPT `fault` has the fault, unless it is null; it is written
 * with no other code. */
static inline uint32_t cevandle_explore(const char *script, size_t length, size_t most, cevandle_exploration *found,
                                        cevandle_script_fault *fault)
{
    cevandle_script_fault unwanted = {0, 0};
    if ((script == NULL && length != 0) || found == NULL) {
        return CEVANDLE_NULL;
    }
    return cevandle_explore_nonnull((const uint8_t *)(script == NULL ? "" : script), length, most, found,
                                    fault == NULL ? &unwanted : fault);
}

#ifdef __cplusplus
}
#endif

#endif
