/* race-free: a block that is freed and taken again by another thread is another block */
#include "../threads.h"


static void *one(void *given)
{
    int *block = malloc(64);
    block[0] = 1;
    free(block);
    open_gate(0);
    return given;
}

static void *other(void *given)
{
    pass_gate(0);
    int *block = malloc(64);
    block[0] = 2;
    free(block);
    open_gate(0);
    return given;
}

int main(void)
{
    run(one, other);
    return 0;
}
