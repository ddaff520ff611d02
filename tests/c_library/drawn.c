/* drawn SEED MODEL LAX ENDS: draws a history, and prints it as a trace, and behind it what the library finds of it by these rules,
 * as lines. plain.py compares these with what plain slow rules say. */
#include "cevandle.h"

#include <inttypes.h>
#include <stdio.h>
#include <stdlib.h>

enum { MOST = 60 };

static uint64_t state;

/* A number below the limit: an xorshift generator (Marsaglia 2003). */
static uint32_t draw(uint32_t limit)
{
    state ^= state << 13;
    state ^= state >> 7;
    state ^= state << 17;
    return (uint32_t)(state >> 33) % limit;
}

/* What a processor does next: mostly what it waits for, where it waits. */
static cevandle_event drawn_event(uint32_t who, const uint32_t waits[3], const uint32_t numbers[3])
{
    static const uint32_t ends[] = {CEVANDLE_ACQUIRE, CEVANDLE_DEPART, CEVANDLE_AWAIT};
    cevandle_event event = {.processor = who};
    if (waits[who] != 0 && draw(20) != 0) {
        event.kind = ends[waits[who] - 1];
        event.number = numbers[who];
        return event;
    }
    event.kind = draw(11);
    event.number = draw(event.kind < CEVANDLE_FETCH ? 4 : event.kind == CEVANDLE_FETCH ? 2 : 1);
    if (draw(2) != 0 && event.kind > CEVANDLE_FETCH) {
        event.kind = draw(2);
    }
    event.value = draw(3);
    event.writers = draw(2);
    event.records = event.writers;
    event.words = event.writers;
    return event;
}

/* What the processor waits for after it: 1 a lock, 2 the barrier, 3 a flag, 0 nothing. */
static uint32_t wait_after(uint32_t kind)
{
    return kind == CEVANDLE_ASK ? 1 : kind == CEVANDLE_ARRIVE ? 2 : kind == CEVANDLE_WATCH ? 3 : 0;
}

/* Draws events, of which few are lies. */
static size_t draw_history(cevandle_sizes sizes, cevandle_event *events)
{
    uint32_t waits[3] = {0, 0, 0}, numbers[3] = {0, 0, 0};
    const cevandle_rules lax = {.model = CEVANDLE_RACE_FREE, .lax = 1};
    const size_t limit = 1 + draw(MOST);
    size_t length = 0;
    for (int tries = 0; tries < 1000 && length < limit; tries++) {
        const cevandle_event event = drawn_event(draw(sizes.processors), waits, numbers);
        cevandle_verdict found;
        events[length] = event;
        if (cevandle_judge(sizes, lax, events, length + 1, &found) != CEVANDLE_DONE) {
            exit(1);
        }
        if (found.verdict == CEVANDLE_UNFAITHFUL && draw(40) != 0) {
            continue;
        }
        waits[event.processor] = wait_after(event.kind);
        numbers[event.processor] = event.number;
        length++;
    }
    return length;
}

static void print_event(size_t place, const cevandle_event *event)
{
    static const char *const names[] = {"load",   "store",  "fetch", "ask",   "acquire", "release",
                                        "arrive", "depart", "set",   "watch", "await"};
    printf("event %zu %" PRIu32 " %s", place, event->processor, names[event->kind]);
    if (event->kind != CEVANDLE_ARRIVE && event->kind != CEVANDLE_DEPART) {
        printf(" %" PRIu32, event->number);
    }
    if (event->kind < CEVANDLE_FETCH) {
        printf(" %" PRIu32, event->value);
    } else if (event->kind == CEVANDLE_FETCH) {
        printf(" %" PRIu32 " %" PRIu32 " %" PRIu32, event->writers, event->records, event->words);
    }
    putchar('\n');
}

static void print_verdict(cevandle_rules rules, const cevandle_verdict *found)
{
    printf("events %" PRIu64 "\n", found->judged);
    if (found->verdict == CEVANDLE_FAITHFUL) {
        puts("faithful");
    } else if (found->verdict == CEVANDLE_UNFAITHFUL) {
        const char *why = found->lie.why == CEVANDLE_UNEXPLAINED ? "unexplained"
            : found->lie.why == CEVANDLE_MISCOUNTED              ? "miscounted"
                                                                 : "ill formed";
        printf("%s %" PRIu64 "\n", why, found->lie.place);
    }
    if (rules.model == CEVANDLE_RACE_FREE && found->verdict == CEVANDLE_FAITHFUL && found->race.second != CEVANDLE_NONE) {
        printf("unjudged %" PRIu64 " loads\n", found->unjudged);
    }
    if (found->race.second != CEVANDLE_NONE) {
        printf("race %" PRIu64 " %" PRIu64 "\n", found->race.first, found->race.second);
    }
    if (found->verdict == CEVANDLE_FAITHFUL) {
        printf("traffic %" PRIu64 " %" PRIu64 " %" PRIu64 "\n", found->traffic.messages, found->traffic.records,
               found->traffic.words);
    }
}

int main(int count, char **words)
{
    if (count != 5) {
        return 5;
    }
    state = 0x9E3779B97F4A7C15u * (strtoull(words[1], NULL, 10) + 1);
    const cevandle_rules rules = {.model = (uint32_t)atoi(words[2]),
                                  .lax = (uint32_t)atoi(words[3]),
                                  .ends_at_race = (uint32_t)atoi(words[4])};
    const cevandle_sizes sizes = {.processors = 3, .pages = 2, .words = 2, .locks = 1, .flags = 1};
    cevandle_event events[MOST + 1];
    cevandle_verdict found;
    const size_t length = draw_history(sizes, events);
    if (cevandle_judge(sizes, rules, events, length, &found) != CEVANDLE_DONE) {
        return 1;
    }
    for (size_t place = 0; place < length; place++) {
        print_event(place, &events[place]);
    }
    print_verdict(rules, &found);
    return 0;
}
