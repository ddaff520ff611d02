/* racy: a block is freed while another thread reads it */
#include "../threads.h"

int *block, seen;

static void *one(void *given)
{
    pass_gate(0);
    free(block);
    return given;
}

static void *other(void *given)
{
    seen = block[0];
    open_gate(0);
    return given;
}

int main(void)
{
    block = calloc(4, sizeof *block);
    run(one, other);
    return 0;
}
