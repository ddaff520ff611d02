/* threads_other: a second file of `threads` that logs, so that both share the trace, its numbers and its guard. */
#include "threads.h"

void *add_elsewhere(void *number)
{
    LOCK(0, lock);
    STORE(COUNTER, words[COUNTER], LOAD(COUNTER, words[COUNTER]) + 1);
    UNLOCK(0, lock);
    return number;
}
