/* Judges a history of a memory of one's own: processor 0 stores 9 under lock 0, processor 1 loads under it, and is answered 0.
 * docs/C.md has how to build it. It prints:
 *
 *     event 6 is a lie: it may answer only what event 2 stored
 */
#include "cevandle.h"

#include <inttypes.h>
#include <stdio.h>

int main(void)
{
    const cevandle_sizes sizes = {.processors = 2, .pages = 1, .words = 1, .locks = 1};
    const cevandle_rules rules = {.model = CEVANDLE_RACE_FREE, .lax = 1};
    const cevandle_event events[] = {
        {.processor = 0, .kind = CEVANDLE_ASK, .number = 0},
        {.processor = 0, .kind = CEVANDLE_ACQUIRE, .number = 0},
        {.processor = 0, .kind = CEVANDLE_STORE, .number = 0, .value = 9},
        {.processor = 0, .kind = CEVANDLE_RELEASE, .number = 0},
        {.processor = 1, .kind = CEVANDLE_ASK, .number = 0},
        {.processor = 1, .kind = CEVANDLE_ACQUIRE, .number = 0},
        {.processor = 1, .kind = CEVANDLE_LOAD, .number = 0, .value = 0},
    };
    cevandle_verdict found;
    const uint32_t code = cevandle_judge(sizes, rules, events, sizeof events / sizeof events[0], &found);
    if (code != CEVANDLE_DONE) {
        fprintf(stderr, "refused: %" PRIu32 "\n", code);
        return 1;
    }
    /* That a history is faithful doesn't say that nothing races in it. */
    if (found.race.second != CEVANDLE_NONE) {
        printf("events %" PRIu64 " and %" PRIu64 " race\n", found.race.first, found.race.second);
    }
    if (found.verdict == CEVANDLE_FAITHFUL) {
        puts("faithful");
        return 0;
    }
    printf("event %" PRIu64 " is a lie", found.lie.place);
    if (found.lie.why == CEVANDLE_UNEXPLAINED) {
        const char *front = ": it may answer only what event";
        for (int processor = 0; processor < 16; processor++) {
            if (found.lie.stores[processor] != CEVANDLE_NONE) {
                printf("%s %" PRIu64 " stored", front, found.lie.stores[processor]);
                front = ", or event";
            }
        }
    }
    putchar('\n');
    return 0;
}
