/* Calls the library from C: each verdict and each reason why an event is a lie, each refusal, races, replays, and a long
 * history. `calls limits` instead goes to the limits, `calls memory` has memory refused, by a limit of the shell that runs it.
 * Each trial that fails is a line; the last line is `N passed, M failed`. */
#include "trials.h"

#include <stdlib.h>

static const cevandle_sizes SIZES = {2, 2, 2, 1, 1};

static cevandle_event by(uint32_t processor, uint32_t kind, uint32_t number, uint32_t value)
{
    cevandle_event event = {processor, kind, number, value, 0, 0, 0};
    return event;
}

static cevandle_event fetch(uint32_t processor, uint32_t page, uint32_t writers, uint32_t records, uint32_t words)
{
    cevandle_event event = {processor, CEVANDLE_FETCH, page, 0, writers, records, words};
    return event;
}

static cevandle_rules rules(uint32_t model, uint32_t lax, uint32_t ends_at_race)
{
    cevandle_rules all = {model, lax, ends_at_race};
    return all;
}

/* Judges a history that has to be judged. */
static cevandle_verdict judged(const char *what, cevandle_rules by_rules, const cevandle_event *events, size_t length)
{
    cevandle_verdict found;
    fill(&found, sizeof found);
    count(what, cevandle_judge(SIZES, by_rules, events, length, &found) == CEVANDLE_DONE);
    return found;
}

static int has_no_lie(const cevandle_lie *lie)
{
    int none = lie->why == CEVANDLE_NO_LIE && lie->place == CEVANDLE_NONE && lie->other == CEVANDLE_NONE
        && lie->earlier == CEVANDLE_NONE && lie->last == CEVANDLE_NONE && !lie->writers && !lie->records && !lie->words;
    for (int q = 0; q < 16; q++) {
        none = none && lie->stores[q] == CEVANDLE_NONE;
    }
    return none;
}

/* The last event has to be the first lie, for this reason. */
static cevandle_lie lie(const char *what, uint32_t model, uint64_t why, const cevandle_event *events, size_t length)
{
    cevandle_verdict found = judged(what, rules(model, 0, 0), events, length);
    count(what, found.verdict == CEVANDLE_UNFAITHFUL && found.judged == length && found.lie.why == why
                    && found.lie.place == length - 1 && found.unjudged == 0 && found.traffic.messages == 0);
    return found.lie;
}

static void faithful_histories(void)
{
    cevandle_verdict found = judged("nothing", rules(CEVANDLE_LAZY_RELEASE, 0, 0), NULL, 0);
    count("nothing is faithful", found.verdict == CEVANDLE_FAITHFUL && found.judged == 0 && has_no_lie(&found.lie)
                                     && found.race.first == CEVANDLE_NONE && found.race.second == CEVANDLE_NONE);
    const cevandle_event passes[] = {
        by(0, CEVANDLE_ASK, 0, 0), by(0, CEVANDLE_ACQUIRE, 0, 0), by(0, CEVANDLE_STORE, 0, 9), by(0, CEVANDLE_RELEASE, 0, 0),
        by(1, CEVANDLE_ASK, 0, 0), by(1, CEVANDLE_ACQUIRE, 0, 0), fetch(1, 0, 1, 1, 1),        by(1, CEVANDLE_LOAD, 0, 9)};
    found = judged("a lock", rules(CEVANDLE_LAZY_RELEASE, 0, 0), passes, 8);
    count("a lock is faithful", found.verdict == CEVANDLE_FAITHFUL && found.judged == 8 && has_no_lie(&found.lie)
                                    && found.race.second == CEVANDLE_NONE && found.unjudged == 0);
    count("its traffic", found.traffic.messages == 6 && found.traffic.records == 1 && found.traffic.words == 1);
    const cevandle_event races[] = {by(0, CEVANDLE_STORE, 3, 5), by(1, CEVANDLE_LOAD, 3, 0), by(1, CEVANDLE_LOAD, 3, 7)};
    found = judged("a race", rules(CEVANDLE_RACE_FREE, 0, 0), races, 3);
    count("a race is faithful", found.verdict == CEVANDLE_FAITHFUL && found.race.first == 0 && found.race.second == 1
                                    && found.unjudged == 2 && has_no_lie(&found.lie));
    found = judged("ends at a race", rules(CEVANDLE_RACE_FREE, 0, 1), races, 3);
    count("it ends at the race", found.verdict == CEVANDLE_ENDED_AT_RACE && found.judged == 2 && found.race.first == 0
                                     && found.race.second == 1 && has_no_lie(&found.lie));
}

static void loads(void)
{
    const cevandle_event stale[] = {by(0, CEVANDLE_STORE, 0, 1), by(0, CEVANDLE_SET, 0, 0),   by(1, CEVANDLE_WATCH, 0, 0),
                                    by(1, CEVANDLE_AWAIT, 0, 0), by(0, CEVANDLE_STORE, 0, 2), by(1, CEVANDLE_LOAD, 0, 2)};
    cevandle_lie found = lie("a stale load", CEVANDLE_LAZY_RELEASE, CEVANDLE_UNEXPLAINED, stale, 6);
    count("what it may answer", found.stores[0] == 0 && found.stores[1] == CEVANDLE_NONE && found.last == CEVANDLE_NONE);
    cevandle_event other[6];
    memcpy(other, stale, sizeof other);
    other[5].value = 3;
    found = lie("what nobody stored", CEVANDLE_HAPPENS_BEFORE, CEVANDLE_UNEXPLAINED, other, 6);
    count("what that may answer", found.stores[0] == 0 && found.stores[15] == CEVANDLE_NONE);
    other[5].value = 1;
    found = lie("not the last store", CEVANDLE_SEQUENTIAL, CEVANDLE_UNEXPLAINED, other, 6);
    count("the last store", found.last == 4 && found.stores[0] == CEVANDLE_NONE);
    cevandle_verdict all = judged("happens-before", rules(CEVANDLE_HAPPENS_BEFORE, 0, 0), stale, 6);
    count("happens-before owes less", all.verdict == CEVANDLE_FAITHFUL && all.race.first == 4 && all.race.second == 5);
}

static void many_locks(void)
{
    const cevandle_sizes sizes = {2, 1, 1, 1u << 16, 1u << 16};
    const cevandle_event events[] = {
        by(0, CEVANDLE_ASK, 65535, 0),   by(0, CEVANDLE_ACQUIRE, 65535, 0), by(0, CEVANDLE_STORE, 0, 9),
        by(0, CEVANDLE_SET, 65535, 0),   by(1, CEVANDLE_WATCH, 65535, 0),   by(1, CEVANDLE_AWAIT, 65535, 0),
        by(1, CEVANDLE_LOAD, 0, 9),      by(1, CEVANDLE_ASK, 65535, 0),     by(1, CEVANDLE_ACQUIRE, 65535, 0)};
    cevandle_verdict found;
    count("the last of 2^16 flags", cevandle_judge(sizes, rules(CEVANDLE_RACE_FREE, 0, 0), events, 8, &found) == CEVANDLE_DONE
                                        && found.verdict == CEVANDLE_FAITHFUL && found.race.second == CEVANDLE_NONE);
    count("the last of 2^16 locks", cevandle_judge(sizes, rules(CEVANDLE_RACE_FREE, 0, 0), events, 9, &found) == CEVANDLE_DONE
                                        && found.verdict == CEVANDLE_UNFAITHFUL && found.lie.why == CEVANDLE_HELD_BY && found.lie.other == 0);
}

static void reasons(void)
{
    const uint32_t model = CEVANDLE_LAZY_RELEASE;
    cevandle_event e[5] = {by(0, CEVANDLE_ASK, 0, 0), by(0, CEVANDLE_ACQUIRE, 0, 0)};
    cevandle_lie found;
    e[2] = fetch(0, 0, 4, 5, 6);
    found = lie("a fetch that counts wrong", model, CEVANDLE_MISCOUNTED, e, 3);
    count("what it has to count", !found.writers && !found.records && !found.words);
    e[2] = by(2, CEVANDLE_ARRIVE, 0, 0);
    lie("no such processor", model, CEVANDLE_NO_SUCH_PROCESSOR, e, 3);
    e[2] = by(UINT32_MAX, CEVANDLE_ARRIVE, 0, 0);
    lie("the greatest processor", model, CEVANDLE_NO_SUCH_PROCESSOR, e, 3);
    e[2] = by(0, CEVANDLE_LOAD, 4, 0);
    lie("an address out of range", model, CEVANDLE_OUT_OF_RANGE, e, 3);
    e[2] = by(0, CEVANDLE_ASK, 0, 0);
    lie("asks for what it holds", model, CEVANDLE_ASKS_WHAT_IT_HOLDS, e, 3);
    e[2] = by(1, CEVANDLE_ACQUIRE, 0, 0);
    lie("has not asked", model, CEVANDLE_NOT_ASKED, e, 3);
    e[2] = by(1, CEVANDLE_RELEASE, 0, 0);
    lie("does not hold", model, CEVANDLE_NOT_HELD, e, 3);
    e[2] = by(1, CEVANDLE_ASK, 0, 0);
    e[3] = by(1, CEVANDLE_LOAD, 0, 0);
    lie("waits", model, CEVANDLE_WAITS, e, 4);
    e[3] = by(1, CEVANDLE_ACQUIRE, 0, 0);
    found = lie("held by another", model, CEVANDLE_HELD_BY, e, 4);
    count("by whom", found.other == 0 && found.earlier == CEVANDLE_NONE);
    e[0] = by(1, CEVANDLE_ASK, 0, 0);
    e[1] = by(0, CEVANDLE_ASK, 0, 0);
    e[2] = by(0, CEVANDLE_ACQUIRE, 0, 0);
    found = lie("asked earlier", model, CEVANDLE_ASKED_EARLIER, e, 3);
    count("who, and where", found.other == 1 && found.earlier == 0);
    count("lax leaves that out", judged("lax", rules(model, 1, 0), e, 3).verdict == CEVANDLE_FAITHFUL);
    e[0] = by(0, CEVANDLE_ARRIVE, 0, 0);
    e[1] = by(0, CEVANDLE_DEPART, 0, 0);
    found = lie("not arrived", model, CEVANDLE_NOT_ARRIVED, e, 2);
    count("who has not", found.other == 1);
    e[0] = by(0, CEVANDLE_WATCH, 0, 0);
    e[1] = by(0, CEVANDLE_AWAIT, 0, 0);
    lie("not set", model, CEVANDLE_NOT_SET, e, 2);
}

/* A call of the judge has to answer this code, and to write nothing. */
static void refuses(const char *what, uint32_t code, cevandle_sizes sizes, cevandle_rules by_rules,
                    const cevandle_event *events, size_t length)
{
    cevandle_verdict found;
    fill(&found, sizeof found);
    count(what, cevandle_judge(sizes, by_rules, events, length, &found) == code && is_filled(&found, sizeof found));
}

static void refusals(cevandle_event *many)
{
    const cevandle_rules any = rules(0, 0, 0);
    const cevandle_event bad[] = {by(0, 11, 0, 0)};
    cevandle_sizes sizes[] = {SIZES, SIZES, SIZES, SIZES, SIZES, SIZES};
    sizes[0].processors = 17;
    sizes[1].pages = (1u << 19) + 1;
    sizes[2].words = (1u << 19) + 1;
    sizes[3].locks = (1u << 16) + 1;
    sizes[4].flags = (1u << 16) + 1;
    sizes[5].pages = UINT32_MAX;
    for (int i = 0; i < 6; i++) {
        refuses("bad sizes", CEVANDLE_BAD_SIZES, sizes[i], rules(9, 9, 9), bad, 1);
    }
    refuses("a bad model", CEVANDLE_BAD_RULES, SIZES, rules(4, 0, 0), bad, 1);
    refuses("bad laxness", CEVANDLE_BAD_RULES, SIZES, rules(0, 2, 0), bad, 1);
    refuses("a bad end", CEVANDLE_BAD_RULES, SIZES, rules(0, 0, UINT32_MAX), bad, 1);
    refuses("a bad kind", CEVANDLE_BAD_EVENT, SIZES, any, bad, 1);
    many[CEVANDLE_MOST_EVENTS].kind = 11;
    refuses("too many", CEVANDLE_TOO_MANY, SIZES, any, many, CEVANDLE_MOST_EVENTS + 1);
    refuses("no events", CEVANDLE_NULL, SIZES, any, NULL, 1);
    count("nowhere to write", cevandle_judge(SIZES, any, bad, 1, NULL) == CEVANDLE_NULL);
}

static void races(cevandle_event *many)
{
    cevandle_race race;
    const cevandle_event events[] = {by(0, CEVANDLE_STORE, 1, 1), by(0, CEVANDLE_LOAD, 1, 1), by(1, CEVANDLE_STORE, 1, 2)};
    count("the first race", cevandle_first_race(SIZES, events, 3, &race) == CEVANDLE_DONE && race.first == 0
                                && race.second == 2);
    count("no race", cevandle_first_race(SIZES, events, 2, &race) == CEVANDLE_DONE && race.first == CEVANDLE_NONE
                         && race.second == CEVANDLE_NONE);
    count("no race of nothing", cevandle_first_race(SIZES, NULL, 0, &race) == CEVANDLE_DONE && race.first == CEVANDLE_NONE);
    const struct {
        const char *what;
        uint32_t code;
        cevandle_sizes sizes;
        cevandle_event event;
    } rows[] = {
        {"race: bad sizes", CEVANDLE_BAD_SIZES, {17, 1, 1, 1, 1}, by(0, CEVANDLE_LOAD, 0, 0)},
        {"race: a bad kind", CEVANDLE_BAD_EVENT, SIZES, by(0, 11, 0, 0)},
        {"race: a bad processor", CEVANDLE_BAD_EVENT, SIZES, by(2, CEVANDLE_LOAD, 0, 0)},
        {"race: a bad address", CEVANDLE_BAD_EVENT, SIZES, by(0, CEVANDLE_STORE, 4, 0)},
        {"race: a bad page", CEVANDLE_BAD_EVENT, SIZES, fetch(0, 2, 0, 0, 0)},
        {"race: a bad lock", CEVANDLE_BAD_EVENT, SIZES, by(0, CEVANDLE_ASK, 1, 0)},
        {"race: a bad flag", CEVANDLE_BAD_EVENT, SIZES, by(0, CEVANDLE_SET, 1, 0)},
    };
    for (size_t i = 0; i < sizeof rows / sizeof rows[0]; i++) {
        fill(&race, sizeof race);
        count(rows[i].what, cevandle_first_race(rows[i].sizes, &rows[i].event, 1, &race) == rows[i].code
                                && is_filled(&race, sizeof race));
    }
    fill(&race, sizeof race);
    count("race: too many", cevandle_first_race(SIZES, many, CEVANDLE_MOST_EVENTS + 1, &race) == CEVANDLE_TOO_MANY
                                && is_filled(&race, sizeof race));
    count("race: null", cevandle_first_race(SIZES, NULL, 1, &race) == CEVANDLE_NULL
                            && cevandle_first_race(SIZES, events, 1, NULL) == CEVANDLE_NULL);
}

static void replays(cevandle_event *many)
{
    uint32_t memory[4] = {8, 8, 8, 8}, does = 7;
    const cevandle_event events[] = {by(0, CEVANDLE_STORE, 1, 5), by(1, CEVANDLE_LOAD, 1, 5), by(1, CEVANDLE_STORE, 3, 6),
                                     by(0, CEVANDLE_LOAD, 3, 0)};
    count("replays", cevandle_replay(SIZES, events, 3, memory, 4, &does) == CEVANDLE_DONE && does == 1 && memory[0] == 0
                         && memory[1] == 5 && memory[2] == 0 && memory[3] == 6);
    memory[0] = 8;
    count("does not", cevandle_replay(SIZES, events, 4, memory, 4, &does) == CEVANDLE_DONE && does == 0 && memory[0] == 8
                          && memory[1] == 5 && memory[2] == 0 && memory[3] == 6);
    does = 7;
    count("replay: room", cevandle_replay(SIZES, events, 3, memory, 3, &does) == CEVANDLE_BAD_ROOM && does == 7);
    cevandle_sizes bad = SIZES;
    bad.words = 65;
    count("replay: bad sizes", cevandle_replay(bad, events, 3, memory, 4, &does) == CEVANDLE_BAD_SIZES && does == 7);
    const cevandle_event past = by(0, CEVANDLE_LOAD, 4, 0);
    count("replay: a bad event", cevandle_replay(SIZES, &past, 1, memory, 4, &does) == CEVANDLE_BAD_EVENT && does == 7);
    count("replay: too many",
          cevandle_replay(SIZES, many, CEVANDLE_MOST_EVENTS + 1, memory, 4, &does) == CEVANDLE_TOO_MANY && does == 7);
    count("replay: null", cevandle_replay(SIZES, NULL, 1, memory, 4, &does) == CEVANDLE_NULL
                              && cevandle_replay(SIZES, events, 1, NULL, 4, &does) == CEVANDLE_NULL
                              && cevandle_replay(SIZES, events, 1, memory, 4, NULL) == CEVANDLE_NULL);
    count("memory as before", memory[0] == 8 && memory[1] == 5 && memory[2] == 0 && memory[3] == 6);
}

/* A million events: two processors pass a lock on, and each adds 1 to a word. */
static size_t long_history(cevandle_event *events, size_t most)
{
    size_t length = 0;
    for (uint32_t turn = 0; length + 5 <= most; turn++) {
        uint32_t who = turn % 2;
        events[length++] = by(who, CEVANDLE_ASK, 0, 0);
        events[length++] = by(who, CEVANDLE_ACQUIRE, 0, 0);
        events[length++] = by(who, CEVANDLE_LOAD, 0, turn);
        events[length++] = by(who, CEVANDLE_STORE, 0, turn + 1);
        events[length++] = by(who, CEVANDLE_RELEASE, 0, 0);
    }
    return length;
}

static int is_access(cevandle_place access, uint64_t place, uint64_t processor)
{
    return access.place == place && access.processor == processor;
}

/* Adds a section of the processor under the lock, with an access in its midst if `kind` is one, and returns how many there are. */
static size_t add_section(cevandle_event *events, size_t length, uint32_t who, uint32_t lock, uint32_t kind, uint32_t value)
{
    events[length++] = by(who, CEVANDLE_ASK, lock, 0);
    events[length++] = by(who, CEVANDLE_ACQUIRE, lock, 0);
    if (kind <= CEVANDLE_STORE) {
        events[length++] = by(who, kind, 0, value);
    }
    events[length++] = by(who, CEVANDLE_RELEASE, lock, 0);
    return length;
}

/* A lock is forgotten once, of word 0 at place 12; word 3 is handed over under lock 1, which orders all and guards nothing. */
static size_t forgotten(cevandle_event *events)
{
    size_t length = add_section(events, 0, 0, 0, CEVANDLE_STORE, 1);
    length = add_section(events, length, 1, 0, CEVANDLE_STORE, 2);
    length = add_section(events, length, 0, 0, CEVANDLE_LOAD, 2);
    events[length++] = by(0, CEVANDLE_STORE, 0, 3);
    events[length++] = by(0, CEVANDLE_STORE, 3, 5);
    length = add_section(events, length, 0, 1, UINT32_MAX, 0);
    length = add_section(events, length, 1, 1, UINT32_MAX, 0);
    events[length++] = by(1, CEVANDLE_STORE, 3, 6);
    length = add_section(events, length, 1, 0, CEVANDLE_STORE, 4);
    length = add_section(events, length, 1, 1, UINT32_MAX, 0);
    length = add_section(events, length, 0, 1, UINT32_MAX, 0);
    events[length++] = by(0, CEVANDLE_LOAD, 3, 6);
    return length;
}

static const cevandle_sizes TWO_LOCKS = {2, 2, 2, 2, 1};

static void locksets(void)
{
    cevandle_event events[40];
    cevandle_word words[3];
    cevandle_locksets_found found;
    const size_t length = forgotten(events);
    fill(words, sizeof words);
    count("a forgotten lock", cevandle_locksets(TWO_LOCKS, rules(0, 0, 0), CEVANDLE_FORGOTTEN, events, length, words, 3, &found) == CEVANDLE_DONE
                                  && found.words == 1 && found.verdict.verdict == CEVANDLE_FAITHFUL && found.verdict.judged == length
                                  && found.verdict.race.second == CEVANDLE_NONE);
    count("its word", words[0].address == 0 && is_access(words[0].first, 6, 1) && is_access(words[0].second, 12, 0));
    count("what was guarded", is_access(words[0].guarded.first, 6, 1) && is_access(words[0].guarded.second, 10, 0) && words[0].guarded.lock == 0);
    count("no other is written", is_filled(&words[1], 2 * sizeof words[1]));
    fill(words, sizeof words);
    count("all words", cevandle_locksets(TWO_LOCKS, rules(0, 0, 0), CEVANDLE_ALL_WORDS, events, length, words, 3, &found) == CEVANDLE_DONE
                           && found.words == 2 && words[0].address == 0 && words[1].address == 3);
    count("one that is handed over", is_access(words[1].first, 20, 1) && is_access(words[1].second, length - 1, 0)
                                         && is_access(words[1].guarded.first, CEVANDLE_NONE, CEVANDLE_NONE)
                                         && is_access(words[1].guarded.second, CEVANDLE_NONE, CEVANDLE_NONE)
                                         && words[1].guarded.lock == CEVANDLE_NONE);
    count("no third is written", is_filled(&words[2], sizeof words[2]));
    fill(words, sizeof words);
    count("room for one", cevandle_locksets(TWO_LOCKS, rules(0, 0, 0), CEVANDLE_ALL_WORDS, events, length, words, 1, &found) == CEVANDLE_DONE
                              && found.words == 2 && words[0].address == 0 && is_filled(&words[1], 2 * sizeof words[1]));
    count("room for none", cevandle_locksets(TWO_LOCKS, rules(0, 0, 0), CEVANDLE_ALL_WORDS, events, length, NULL, 0, &found) == CEVANDLE_DONE
                               && found.words == 2);
    events[length - 1].value = 7;
    count("no words of a lie", cevandle_locksets(TWO_LOCKS, rules(0, 0, 0), CEVANDLE_ALL_WORDS, events, length, words, 3, &found) == CEVANDLE_DONE
                                   && found.words == 0 && found.verdict.verdict == CEVANDLE_UNFAITHFUL && found.verdict.lie.place == length - 1);
    const cevandle_event racing[] = {by(0, CEVANDLE_STORE, 0, 1), by(1, CEVANDLE_STORE, 0, 2)};
    count("nor of a race", cevandle_locksets(TWO_LOCKS, rules(0, 0, 0), CEVANDLE_ALL_WORDS, racing, 2, words, 3, &found) == CEVANDLE_DONE
                               && found.words == 0 && found.verdict.race.first == 0 && found.verdict.race.second == 1);
    const cevandle_sizes wide = {65, 1, 1, 1, 1};
    fill(&found, sizeof found);
    fill(words, sizeof words);
    count("locksets: sizes", cevandle_locksets(wide, rules(0, 0, 0), 2, events, length, words, 3, &found) == CEVANDLE_BAD_SIZES);
    count("locksets: which", cevandle_locksets(TWO_LOCKS, rules(0, 0, 0), 2, events, length, words, 3, &found) == CEVANDLE_BAD_RULES);
    count("locksets: rules", cevandle_locksets(TWO_LOCKS, rules(4, 0, 0), 0, events, length, words, 3, &found) == CEVANDLE_BAD_RULES);
    events[0].kind = 11;
    count("locksets: kind", cevandle_locksets(TWO_LOCKS, rules(0, 0, 0), 0, events, length, words, 3, &found) == CEVANDLE_BAD_EVENT);
    count("locksets: events", cevandle_locksets(TWO_LOCKS, rules(0, 0, 0), 0, NULL, 1, words, 3, &found) == CEVANDLE_NULL);
    count("locksets: words", cevandle_locksets(TWO_LOCKS, rules(0, 0, 0), 0, events, length, NULL, 1, &found) == CEVANDLE_NULL);
    count("locksets: found", cevandle_locksets(TWO_LOCKS, rules(0, 0, 0), 0, events, length, words, 3, NULL) == CEVANDLE_NULL);
    count("locksets: nothing is written", is_filled(&found, sizeof found) && is_filled(words, sizeof words));
}

static void long_histories(cevandle_event *events)
{
    size_t length = long_history(events, 1000000);
    cevandle_verdict found;
    cevandle_race race;
    uint32_t memory[4], does = 0;
    for (uint32_t model = 0; model < 4; model++) {
        count("a million events", cevandle_judge(SIZES, rules(model, 1, 0), events, length, &found) == CEVANDLE_DONE
                                      && found.verdict == CEVANDLE_FAITHFUL && found.judged == length
                                      && found.race.second == CEVANDLE_NONE && found.traffic.messages == 400000);
    }
    count("their races", cevandle_first_race(SIZES, events, length, &race) == CEVANDLE_DONE && race.second == CEVANDLE_NONE);
    count("their replay", cevandle_replay(SIZES, events, length, memory, 4, &does) == CEVANDLE_DONE && does == 1
                              && memory[0] == 200000);
    events[length - 3].value++;
    count("a late lie", cevandle_judge(SIZES, rules(0, 1, 0), events, length, &found) == CEVANDLE_DONE
                            && found.verdict == CEVANDLE_UNFAITHFUL && found.lie.place == length - 3
                            && found.lie.why == CEVANDLE_UNEXPLAINED && found.lie.stores[0] == length - 7);
}

static const cevandle_sizes GREATEST = {16, 64, 64, 32, 32};

/* As many events as there may be: sixteen processors pass the last lock on, and each adds 1 to the last word. */
static void fill_with_turns(cevandle_event *events)
{
    size_t length = 0;
    for (uint32_t turn = 0; length + 5 <= CEVANDLE_MOST_EVENTS; turn++) {
        const uint32_t who = 15 - turn % 16;
        events[length++] = by(who, CEVANDLE_ASK, 31, 0);
        events[length++] = by(who, CEVANDLE_ACQUIRE, 31, 0);
        events[length++] = by(who, CEVANDLE_LOAD, 4095, turn);
        events[length++] = by(who, CEVANDLE_STORE, 4095, turn + 1);
        events[length++] = by(who, CEVANDLE_RELEASE, 31, 0);
    }
    while (length < CEVANDLE_MOST_EVENTS) {
        events[length++] = by(15, CEVANDLE_SET, 31, 0);
    }
}

/* No more than what there may be is refused: at the greatest sizes, of as many events as there may be. */
static void at_the_limits(cevandle_event *many)
{
    static uint32_t memory[4096];
    cevandle_verdict found;
    cevandle_race race;
    uint32_t does = 0;
    fill_with_turns(many);
    for (uint32_t model = 0; model < 4; model++) {
        count("the most events",
              cevandle_judge(GREATEST, rules(model, 1, 1), many, CEVANDLE_MOST_EVENTS, &found) == CEVANDLE_DONE
                  && found.verdict == CEVANDLE_FAITHFUL && found.judged == CEVANDLE_MOST_EVENTS
                  && found.race.second == CEVANDLE_NONE && found.unjudged == 0);
    }
    count("their races",
          cevandle_first_race(GREATEST, many, CEVANDLE_MOST_EVENTS, &race) == CEVANDLE_DONE && race.second == CEVANDLE_NONE);
    count("their replay", cevandle_replay(GREATEST, many, CEVANDLE_MOST_EVENTS, memory, 4096, &does) == CEVANDLE_DONE
                              && does == 1 && memory[4095] == CEVANDLE_MOST_EVENTS / 5);
    for (size_t i = 0; i < CEVANDLE_MOST_EVENTS; i++) {
        many[i] = fetch(15, 63, UINT32_MAX, UINT32_MAX, UINT32_MAX);
    }
    const uint64_t sum = (uint64_t)CEVANDLE_MOST_EVENTS * UINT32_MAX;
    count("the greatest counts",
          cevandle_judge(GREATEST, rules(0, 1, 0), many, CEVANDLE_MOST_EVENTS, &found) == CEVANDLE_DONE
              && found.verdict == CEVANDLE_FAITHFUL && found.traffic.records == sum && found.traffic.words == sum
              && found.traffic.messages == 2 * sum);
    count("the last page", cevandle_first_race(GREATEST, many, 1, &race) == CEVANDLE_DONE && race.second == CEVANDLE_NONE);
    const cevandle_sizes none = {0, 0, 0, 0, 0};
    count("no sizes", cevandle_judge(none, rules(3, 0, 0), many, 1, &found) == CEVANDLE_DONE
                          && found.lie.why == CEVANDLE_NO_SUCH_PROCESSOR);
    count("no memory", cevandle_first_race(none, NULL, 0, &race) == CEVANDLE_DONE && race.second == CEVANDLE_NONE
                           && cevandle_replay(none, NULL, 0, memory, 0, &does) == CEVANDLE_DONE && does == 1);
}

/* Where there is room for the events that are handed in, and not for a copy. */
static void memory_refused(cevandle_event *many)
{
    cevandle_race race;
    uint32_t memory[4] = {8, 8, 8, 8}, does = 7;
    fill(&race, sizeof race);
    refuses("memory", CEVANDLE_NO_MEMORY, SIZES, rules(0, 0, 0), many, CEVANDLE_MOST_EVENTS);
    count("race: memory", cevandle_first_race(SIZES, many, CEVANDLE_MOST_EVENTS, &race) == CEVANDLE_NO_MEMORY
                              && is_filled(&race, sizeof race));
    count("replay: memory", cevandle_replay(SIZES, many, CEVANDLE_MOST_EVENTS, memory, 4, &does) == CEVANDLE_NO_MEMORY
                                && does == 7 && memory[0] == 8 && memory[3] == 8);
}

int main(int words, char **word)
{
    cevandle_event *many = calloc(CEVANDLE_MOST_EVENTS + 1, sizeof *many);
    if (many == NULL) {
        return 1;
    }
    if (words == 2) {
        (strcmp(word[1], "memory") == 0 ? memory_refused : at_the_limits)(many);
        free(many);
        return counted();
    }
    faithful_histories();
    loads();
    many_locks();
    reasons();
    refusals(many);
    races(many);
    replays(many);
    locksets();
    long_histories(many);
    free(many);
    return counted();
}
