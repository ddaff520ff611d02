/* race-free: names that the recorder has, too, are the program's own */
#include "../threads.h"

int blocks, processors, recording;
static pthread_mutex_t lock = PTHREAD_MUTEX_INITIALIZER;

void clear(int *word)
{
    pthread_mutex_lock(&lock);
    *word = 0;
    pthread_mutex_unlock(&lock);
}

void say(int *word)
{
    pthread_mutex_lock(&lock);
    *word += 1;
    pthread_mutex_unlock(&lock);
}

static void *one(void *given)
{
    clear(&blocks);
    say(&recording);
    return given;
}

static void *other(void *given)
{
    say(&blocks);
    clear(&processors);
    return given;
}

int main(void)
{
    run(one, other);
    return 0;
}
