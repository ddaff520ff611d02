/* race-free: neighbours in one word */
#include "../threads.h"

char bytes[4];
short halves[2];

static void *one(void *given)
{
    for (int at = 0; at < 100; at++)
        bytes[0]++;
    return given;
}

static void *other(void *given)
{
    for (int at = 0; at < 100; at++)
        bytes[1]++;
    halves[1]++;
    return given;
}

int main(void)
{
    run(one, other);
    return 0;
}
