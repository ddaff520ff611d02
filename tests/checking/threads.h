/* threads: what its two files share. */
#define _GNU_SOURCE
#include "../../examples/checking/logger.h"
#include <unistd.h>

enum { COUNTER, RESULT, WORDS };

extern uint32_t words[WORDS];
extern pthread_mutex_t lock;

void *add_elsewhere(void *number);
