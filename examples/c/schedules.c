/* Looks at all schedules of a script: processor 0 stores a word, processor 1 loads it, and nothing orders the two.
 * docs/C.md has how to build it. It prints:
 *
 *     event 0 by processor 0 and event 1 by processor 1 race at address 0
 */
#include "cevandle.h"

#include <inttypes.h>
#include <stdio.h>

int main(void)
{
    static const char script[] = "cluster 2 1 1 0\n"
                                 "p 0\n"
                                 "store 0 5\n"
                                 "p 1\n"
                                 "load 0\n"
                                 "show 0\n";
    cevandle_exploration found;
    cevandle_script_fault fault;
    const uint32_t code = cevandle_explore(script, sizeof script - 1, 1000000, &found, &fault);
    if (code == CEVANDLE_BAD_SCRIPT) {
        fprintf(stderr, "refused: line %" PRIu64 ", fault %" PRIu64 "\n", fault.line, fault.kind);
    } else if (code != CEVANDLE_DONE) {
        fprintf(stderr, "refused: %" PRIu32 "\n", code);
    } else if (found.verdict == CEVANDLE_RACES) {
        const cevandle_access *first = &found.race.first, *second = &found.race.second;
        printf("event %" PRIu64 " by processor %" PRIu64 " and event %" PRIu64 " by processor %" PRIu64
               " race at address %" PRIu64 "\n",
               first->place, first->processor, second->place, second->processor, first->address);
    } else {
        puts(found.verdict == CEVANDLE_NEVER_RACES ? "never races" : "not known: look at more states");
    }
    return code != CEVANDLE_DONE;
}
