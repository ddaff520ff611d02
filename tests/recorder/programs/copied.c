/* racy: a block is copied while it is stored to */
#include "../threads.h"

int block[16], copy[16];

static void *one(void *given)
{
    memcpy(copy, block, sizeof copy);
    return given;
}

static void *other(void *given)
{
    block[7] = 1;
    return given;
}

int main(void)
{
    run(one, other);
    return 0;
}
