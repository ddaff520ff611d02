/* racy: double-checked locking with a plain word */
#include "../threads.h"

static pthread_mutex_t mutex = PTHREAD_MUTEX_INITIALIZER;
int made;
int word, seen[2];

static void make(void)
{
    if (made)
        return;
    pthread_mutex_lock(&mutex);
    if (!made) {
        word = 1;
        made = 1;
    }
    pthread_mutex_unlock(&mutex);
}

static void *one(void *given)
{
    make();
    seen[0] = word;
    return given;
}

static void *other(void *given)
{
    make();
    seen[1] = word;
    return given;
}

int main(void)
{
    run(one, other);
    return 0;
}
