/* race-free: the mutex is forgotten where another one orders the accesses by accident; unprotected with --locksets */
#include "../threads.h"

static pthread_mutex_t mutex = PTHREAD_MUTEX_INITIALIZER;
static pthread_mutex_t gate = PTHREAD_MUTEX_INITIALIZER;
int word;
static int turn;

static void change(int value)
{
    pthread_mutex_lock(&mutex);
    word = value;
    pthread_mutex_unlock(&mutex);
}

static void give(int next)
{
    pthread_mutex_lock(&gate);
    turn = next;
    pthread_mutex_unlock(&gate);
}

static void take(int mine)
{
    for (int now = -1; now != mine; sched_yield()) {
        pthread_mutex_lock(&gate);
        now = turn;
        pthread_mutex_unlock(&gate);
    }
}

static void *one(void *given)
{
    take(1);
    change(2);
    give(2);
    return given;
}

static void *other(void *given)
{
    change(1);
    give(1);
    take(2);
    word = 3;
    change(4);
    return given;
}

int main(void)
{
    run(one, other);
    return 0;
}
