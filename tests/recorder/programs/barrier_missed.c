/* racy: a phase goes on into the other one */
#include "../threads.h"

static pthread_barrier_t barrier;
int words[2];

static void *one(void *given)
{
    words[0] = 1;
    pthread_barrier_wait(&barrier);
    words[1] = 1;
    return given;
}

static void *other(void *given)
{
    pthread_barrier_wait(&barrier);
    words[0] = words[1];
    return given;
}

int main(void)
{
    pthread_barrier_init(&barrier, NULL, 2);
    run(one, other);
    return 0;
}
