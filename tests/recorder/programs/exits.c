/* race-free: a thread ends the program while others run */
#include "../threads.h"

int word;

static void *one(void *given)
{
    word++;
    _exit(0);
    return given;
}

static void *other(void *given)
{
    for (;;)
        pause();
    return given;
}

int main(void)
{
    run(one, other);
    return 0;
}
