/* racy: a table that two threads fill, and a flag and a sum that they share, without a lock: each race is told */
#include "../threads.h"

int table[64];
int done;
long sum;

static void fill(int value)
{
    for (int at = 0; at < 64; at++)
        table[at] = value; /* races */
}

static void *one(void *given)
{
    fill(1);
    done = 1; /* races */
    sum += 1; /* races */
    return given;
}

static void *other(void *given)
{
    fill(2);
    sum += done; /* races */
    return given;
}

int main(void)
{
    run(one, other);
    return 0;
}
