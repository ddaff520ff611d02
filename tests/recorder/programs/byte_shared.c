/* racy: one byte of a word */
#include "../threads.h"

char bytes[4];

static void *one(void *given)
{
    bytes[1]++;
    return given;
}

static void *other(void *given)
{
    bytes[2]++;
    bytes[1]++;
    return given;
}

int main(void)
{
    run(one, other);
    return 0;
}
