/* race-free: a program that a signal ends: the trace has whole lines */
#include "../threads.h"

int word;

static void *one(void *given)
{
    word++;
    abort();
    return given;
}

static void *other(void *given)
{
    return given;
}

int main(void)
{
    run(one, other);
    return 0;
}
