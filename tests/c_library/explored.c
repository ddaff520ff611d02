/* explored [MOST]: looks at all schedules of the script on standard input, and prints the lines of `lrc explore` that the
 * library tells: the verdict, the two accesses that race, how many outcomes there are, what processors wait for, and how
 * many states were found. Of a text that is no script's it prints the line and the fault. explored.py compares. */
#include "cevandle.h"

#include <inttypes.h>
#include <stdio.h>
#include <stdlib.h>

enum { MOST_BYTES = 4 << 20 };

static const char *const FAULTS[] = {"",
                                     "file ends too early",
                                     "line not understood",
                                     "bad number",
                                     "size out of range",
                                     "address out of range",
                                     "no such lock",
                                     "no such flag",
                                     "lock already held",
                                     "lock not held",
                                     "too many",
                                     "number of barriers differs"};

static void print_access(const cevandle_access *access)
{
    printf("event %" PRIu64 " %" PRIu64 " %s %" PRIu64 " %" PRIu64 "\n", access->place, access->processor,
           access->kind == CEVANDLE_LOAD ? "load" : "store", access->address, access->value);
}

static void print_wait(uint64_t processor, const cevandle_wait *wait)
{
    if (wait->kind == CEVANDLE_DEPART) {
        printf("processor %" PRIu64 " waits at the barrier\n", processor);
    } else if (wait->kind != CEVANDLE_NONE) {
        const char *what = wait->kind == CEVANDLE_ACQUIRE ? "lock" : "flag";
        printf("processor %" PRIu64 " waits for %s %" PRIu64 "\n", processor, what, wait->number);
    }
}

static void print_hang(const cevandle_exploration *found)
{
    static const char *const hangs[] = {"hangs never", "hangs", "hangs undecided"};
    if (found->verdict != CEVANDLE_RACES || found->hangs == CEVANDLE_HANGS) {
        puts(hangs[found->hangs]);
    }
    for (uint64_t processor = 0; processor < 16; processor++) {
        print_wait(processor, &found->waits[processor]);
    }
}

static void print_found(const cevandle_exploration *found)
{
    static const char *const verdicts[] = {"race-free under every schedule", "racy", "undecided"};
    printf("verdict %s\n", verdicts[found->verdict]);
    if (found->verdict == CEVANDLE_RACES) {
        puts("race");
        print_access(&found->race.first);
        print_access(&found->race.second);
    } else {
        printf("outcomes %" PRIu64 "%s\n", found->outcomes, found->are_all ? "" : " so far");
    }
    print_hang(found);
    printf("states %" PRIu64 "\n", found->states);
}

int main(int words, char **word)
{
    static char script[MOST_BYTES];
    const size_t length = fread(script, 1, sizeof script, stdin);
    const size_t most = words > 1 ? strtoull(word[1], NULL, 10) : 1000000;
    cevandle_exploration found;
    cevandle_script_fault fault;
    const uint32_t code = cevandle_explore(script, length, most, &found, &fault);
    if (code == CEVANDLE_BAD_SCRIPT) {
        printf("line %" PRIu64 ": %s\n", fault.line, FAULTS[fault.kind]);
    } else if (code == CEVANDLE_DONE) {
        print_found(&found);
    }
    return code != CEVANDLE_DONE && code != CEVANDLE_BAD_SCRIPT;
}
