/* race-free: phases between barriers */
#include "../threads.h"

static pthread_barrier_t barrier;
int words[2];

static void *one(void *given)
{
    for (int at = 0; at < 20; at++) {
        words[at % 2] = at;
        pthread_barrier_wait(&barrier);
    }
    return given;
}

static void *other(void *given)
{
    for (int at = 0; at < 20; at++) {
        words[(at + 1) % 2] = at;
        pthread_barrier_wait(&barrier);
    }
    return given;
}

int main(void)
{
    pthread_barrier_init(&barrier, NULL, 2);
    run(one, other);
    return 0;
}
