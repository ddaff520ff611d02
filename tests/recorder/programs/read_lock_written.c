/* racy: two threads write under the read lock */
#include "../threads.h"

static pthread_rwlock_t lock = PTHREAD_RWLOCK_INITIALIZER;
int word;

static void *one(void *given)
{
    pthread_rwlock_rdlock(&lock);
    word++;
    open_gate(0);
    pass_gate(1);
    pthread_rwlock_unlock(&lock);
    return given;
}

static void *other(void *given)
{
    pthread_rwlock_rdlock(&lock);
    word++;
    open_gate(1);
    pass_gate(0);
    pthread_rwlock_unlock(&lock);
    return given;
}

int main(void)
{
    run(one, other);
    return 0;
}
