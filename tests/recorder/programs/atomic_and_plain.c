/* racy: a plain store beside an atomic load */
#include "../threads.h"

static _Atomic int ready;
int word;

static void *one(void *given)
{
    *(volatile int *)&ready = 1;
    return given;
}

static void *other(void *given)
{
    word = atomic_load(&ready);
    return given;
}

int main(void)
{
    run(one, other);
    return 0;
}
