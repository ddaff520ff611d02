/* race-free: a word under a read-write lock */
#include "../threads.h"

static pthread_rwlock_t lock = PTHREAD_RWLOCK_INITIALIZER;
int word, seen;

static void *one(void *given)
{
    for (int at = 0; at < 50; at++) {
        pthread_rwlock_wrlock(&lock);
        word++;
        pthread_rwlock_unlock(&lock);
    }
    return given;
}

static void *other(void *given)
{
    for (int at = 0; at < 50; at++) {
        pthread_rwlock_rdlock(&lock);
        seen = word;
        pthread_rwlock_unlock(&lock);
    }
    return given;
}

int main(void)
{
    run(one, other);
    return 0;
}
