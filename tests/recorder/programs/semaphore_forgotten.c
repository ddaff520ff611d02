/* racy: who takes it has touched the word before */
#include "../threads.h"

static sem_t semaphore;
int word;

static void *one(void *given)
{
    word = 1;
    sem_post(&semaphore);
    return given;
}

static void *other(void *given)
{
    word = 2;
    sem_wait(&semaphore);
    return given;
}

int main(void)
{
    sem_init(&semaphore, 0, 0);
    run(one, other);
    return 0;
}
