/* Calls the explorer from C: what it tells of scripts, each fault of a script, and what is left unwritten. `explorations limits`
 * instead has the longest script, `explorations memory` has memory refused, by a limit of the shell that runs it. Each trial
 * that fails is a line; the last line is `N passed, M failed`. */
#include "trials.h"

#include <stdlib.h>

/* Looks at the schedules of a script that has to be one. */
static cevandle_exploration explored(const char *what, const char *script, size_t most)
{
    cevandle_exploration found;
    fill(&found, sizeof found);
    count(what, cevandle_explore(script, strlen(script), most, &found, NULL) == CEVANDLE_DONE);
    return found;
}

static int is_access(const cevandle_access *access, uint64_t place, uint64_t processor, uint64_t kind, uint64_t value)
{
    return access->place == place && access->processor == processor && access->kind == kind && access->value == value;
}

static int has_no_race(const cevandle_exploration *found)
{
    const uint64_t none = CEVANDLE_NONE;
    return is_access(&found->race.first, none, none, none, none) && is_access(&found->race.second, none, none, none, none)
           && found->race.first.address == none && found->race.second.address == none;
}

/* How many processors wait. */
static int waiting(const cevandle_exploration *found)
{
    int waits = 0;
    for (int processor = 0; processor < 16; processor++) {
        waits += found->waits[processor].kind != CEVANDLE_NONE || found->waits[processor].number != CEVANDLE_NONE;
    }
    return waits;
}

static void explorations(void)
{
    const char counter[]
        = "cluster 2 1 1 1\np 0\nacquire 0\nadd 0 1\nrelease 0\np 1\nacquire 0\nadd 0 1\nrelease 0\nshow 0\n";
    cevandle_exploration found = explored("a counter", counter, 1000);
    count("it never races", found.verdict == CEVANDLE_NEVER_RACES && found.hangs == CEVANDLE_NEVER_HANGS
                                && found.states == 4 && found.outcomes == 1 && found.are_all == 1 && has_no_race(&found)
                                && waiting(&found) == 0);
    found = explored("a counter, up to its last state", counter, 4);
    count("nothing is open", found.hangs == CEVANDLE_NEVER_HANGS && found.states == 4 && found.are_all == 1);
    found = explored("a counter, up to the state before", counter, 3);
    count("it is given up, and its text shows that it doesn't hang",
          found.hangs == CEVANDLE_NEVER_HANGS && found.states == 4 && found.are_all == 0);
    const char crossed[] = "cluster 2 1 1 2\np 0\nacquire 0\nacquire 1\nrelease 1\nrelease 0\n"
                           "p 1\nacquire 1\nacquire 0\nrelease 0\nrelease 1\nshow 0\n";
    found = explored("crossed locks that aren't looked for", crossed, 0);
    count("whether it hangs is unknown", found.hangs == CEVANDLE_HANGS_UNKNOWN && found.are_all == 0);
    const char races[] = "cluster 2 1 2 0\np 0\nstore 1 5\np 1\nload 1\nshow 0\n";
    found = explored("a race", races, SIZE_MAX);
    count("its accesses", found.verdict == CEVANDLE_RACES && is_access(&found.race.first, 0, 0, CEVANDLE_STORE, 5)
                              && is_access(&found.race.second, 1, 1, CEVANDLE_LOAD, 5) && found.race.first.address == 1
                              && found.race.second.address == 1);
    found = explored("a race that isn't looked for", races, 0);
    count("that is unknown", found.verdict == CEVANDLE_RACES_UNKNOWN && found.hangs == CEVANDLE_NEVER_HANGS
                                 && found.states == 1 && found.outcomes == 0 && found.are_all == 0 && has_no_race(&found));
    found = explored("waits", "cluster 3 1 1 1 2\np 0\nacquire 0\nawait 1\np 1\nawait 1\nacquire 0\np 2\nset 0\nshow 0\n",
                     1000);
    count("who waits for what", found.verdict == CEVANDLE_NEVER_RACES && found.hangs == CEVANDLE_HANGS
                                    && found.outcomes == 0 && found.are_all == 1 && waiting(&found) == 3
                                    && found.waits[0].kind == CEVANDLE_AWAIT && found.waits[0].number == 1
                                    && found.waits[1].kind == CEVANDLE_AWAIT && found.waits[1].number == 1
                                    && found.waits[2].kind == CEVANDLE_DEPART && found.waits[2].number == CEVANDLE_NONE);
    found = explored("a lock that is kept", "cluster 2 1 1 32\np 0\nacquire 31\np 1\nacquire 31\nshow 0\n", 1000);
    const int last = found.waits[0].kind == CEVANDLE_ACQUIRE ? 0 : 1;
    count("who waits for it", waiting(&found) == 2 && found.waits[last].kind == CEVANDLE_ACQUIRE
                                  && found.waits[last].number == 31 && found.waits[1 - last].kind == CEVANDLE_DEPART);
}

/* The longest script, if each section has 10,000 instructions: each processor stores to a word of its own. Returns its
 * length. */
static size_t write_longest(char *script, int instructions)
{
    size_t length = (size_t)sprintf(script, "cluster 16 64 64 32 32\n");
    for (int processor = 0; processor < 16; processor++) {
        length += (size_t)sprintf(script + length, "p %d\n", processor);
        for (int i = 0; i < instructions; i++) {
            length += (size_t)sprintf(script + length, "store %d 4294967295\n", 4080 + processor);
        }
    }
    length += (size_t)sprintf(script + length, "show");
    for (int shown = 0; shown < 64; shown++) {
        length += (size_t)sprintf(script + length, " %d", 4095 - shown);
    }
    return length + (size_t)sprintf(script + length, "\n");
}

/* No script is refused that isn't too long, and no number of states. */
static void at_the_limits(void)
{
    enum { MOST_BYTES = 3520418 };
    char *script = malloc(MOST_BYTES + 16 * 22 + 1);
    if (script == NULL) {
        exit(1);
    }
    cevandle_exploration found;
    cevandle_script_fault fault;
    const size_t length = write_longest(script, 10000);
    count("the longest script", length == MOST_BYTES
                                    && cevandle_explore(script, length, SIZE_MAX, &found, &fault) == CEVANDLE_DONE
                                    && found.verdict == CEVANDLE_NEVER_RACES && found.hangs == CEVANDLE_NEVER_HANGS
                                    && found.outcomes == 1 && found.are_all == 1);
    count("a longer one", cevandle_explore(script, write_longest(script, 10001), 1, &found, &fault) == CEVANDLE_BAD_SCRIPT
                              && fault.line == 10003 && fault.kind == CEVANDLE_SCRIPT_TOO_LONG);
    free(script);
}

/* A text that is no script's: nothing is written but its fault. */
static void is_faulty(const char *script, uint64_t line, uint64_t kind)
{
    cevandle_exploration found;
    cevandle_script_fault fault;
    fill(&found, sizeof found);
    fill(&fault, sizeof fault);
    count(script, cevandle_explore(script, strlen(script), 10, &found, &fault) == CEVANDLE_BAD_SCRIPT
                      && is_filled(&found, sizeof found) && fault.line == line && fault.kind == kind);
    count(script, cevandle_explore(script, strlen(script), 10, &found, NULL) == CEVANDLE_BAD_SCRIPT
                      && is_filled(&found, sizeof found));
}

static void script_faults(void)
{
    static const struct {
        const char *script;
        uint64_t line, kind;
    } rows[] = {
        {"", 1, CEVANDLE_SCRIPT_TRUNCATED},
        {"cluster 1 1 1 0\np 0\nshow 0", 3, CEVANDLE_SCRIPT_TRUNCATED},
        {"\xFF\n", 1, CEVANDLE_SCRIPT_BAD_LINE},
        {"cluster 2 1 1 0\np 0\nshow 0\n", 3, CEVANDLE_SCRIPT_BAD_LINE},
        {"cluster 1 1 1 0\np 0\nstore 99 x\nshow 0\n", 3, CEVANDLE_SCRIPT_BAD_NUMBER},
        {"cluster 17 1 1 0\n", 1, CEVANDLE_SCRIPT_BAD_SIZE},
        {"cluster 1 1 1 0\np 0\nload 1\nshow 0\n", 3, CEVANDLE_SCRIPT_OUT_OF_RANGE},
        {"cluster 1 1 1 0\np 0\nacquire 0\nshow 0\n", 3, CEVANDLE_SCRIPT_BAD_LOCK},
        {"cluster 1 1 1 0 1\np 0\nset 1\nshow 0\n", 3, CEVANDLE_SCRIPT_BAD_FLAG},
        {"cluster 1 1 1 1\np 0\nacquire 0\nacquire 0\nshow 0\n", 4, CEVANDLE_SCRIPT_ALREADY_HELD},
        {"cluster 1 1 1 1\np 0\nrelease 0\nshow 0\n", 3, CEVANDLE_SCRIPT_NOT_HELD},
        {"cluster 2 1 1 0\np 0\np 1\nbarrier\nshow 0\n", 3, CEVANDLE_SCRIPT_UNEVEN},
    };
    for (size_t i = 0; i < sizeof rows / sizeof rows[0]; i++) {
        is_faulty(rows[i].script, rows[i].line, rows[i].kind);
    }
    char many[256] = "cluster 1 1 1 0\np 0\nshow";
    for (int shown = 0; shown < 65; shown++) {
        strcat(many, " 0");
    }
    is_faulty(strcat(many, "\n"), 3, CEVANDLE_SCRIPT_TOO_LONG);
    cevandle_exploration found;
    cevandle_script_fault fault;
    fill(&found, sizeof found);
    fill(&fault, sizeof fault);
    count("explore: null", cevandle_explore(NULL, 1, 1, &found, &fault) == CEVANDLE_NULL
                               && cevandle_explore("", 0, 1, NULL, &fault) == CEVANDLE_NULL
                               && is_filled(&found, sizeof found) && is_filled(&fault, sizeof fault));
    count("explore: nothing", cevandle_explore(NULL, 0, 1, &found, &fault) == CEVANDLE_BAD_SCRIPT && fault.line == 1
                                  && fault.kind == CEVANDLE_SCRIPT_TRUNCATED);
    fill(&fault, sizeof fault);
    count("explore: no fault", cevandle_explore("cluster 1 1 1 0\np 0\nshow 0\n", 27, 10, &found, &fault) == CEVANDLE_DONE
                                   && is_filled(&fault, sizeof fault));
}

/* Eight processors ask for one lock, eight times each: the states take more than there is. */
static void memory_refused(void)
{
    char script[4096] = "cluster 8 1 1 1\n", lines[64];
    for (int processor = 0; processor < 8; processor++) {
        sprintf(lines, "p %d\n", processor);
        strcat(script, lines);
        sprintf(lines, "acquire 0\nadd 0 %d\nrelease 0\n", 1 << 4 * (processor % 4));
        for (int section = 0; section < 8; section++) {
            strcat(script, lines);
        }
    }
    strcat(script, "show 0\n");
    cevandle_exploration found;
    cevandle_script_fault fault;
    fill(&found, sizeof found);
    fill(&fault, sizeof fault);
    count("explore: memory", cevandle_explore(script, strlen(script), SIZE_MAX, &found, &fault) == CEVANDLE_NO_MEMORY
                                 && is_filled(&found, sizeof found) && is_filled(&fault, sizeof fault));
}

int main(int words, char **word)
{
    if (words == 2) {
        (strcmp(word[1], "memory") == 0 ? memory_refused : at_the_limits)();
        return counted();
    }
    explorations();
    script_faults();
    return counted();
}
