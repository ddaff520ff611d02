/* racy: one thread does not come to it */
#include "../threads.h"

static pthread_once_t once = PTHREAD_ONCE_INIT;
int word, seen[2];

static void begins(void)
{
    word = 1;
}

static void *one(void *given)
{
    pthread_once(&once, begins);
    seen[0] = word;
    return given;
}

static void *other(void *given)
{
    seen[1] = word;
    return given;
}

int main(void)
{
    run(one, other);
    return 0;
}
