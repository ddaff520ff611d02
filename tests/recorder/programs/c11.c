/* race-free: C11's threads and locks */
#include <stdlib.h>
#include <threads.h>

static mtx_t mutex;
static cnd_t changed;
static once_flag once = ONCE_FLAG_INIT;
int word, is_ready;

static void begins(void)
{
    mtx_init(&mutex, mtx_plain);
    cnd_init(&changed);
}

int one(void *given)
{
    (void)given;
    call_once(&once, begins);
    word = 1;
    mtx_lock(&mutex);
    is_ready = 1;
    cnd_signal(&changed);
    mtx_unlock(&mutex);
    return 7;
}

int other(void *given)
{
    (void)given;
    call_once(&once, begins);
    mtx_lock(&mutex);
    while (!is_ready)
        cnd_wait(&changed, &mutex);
    mtx_unlock(&mutex);
    word = 2;
    return 0;
}

int main(void)
{
    thrd_t threads[2];
    int result;

    thrd_create(&threads[0], one, NULL);
    thrd_create(&threads[1], other, NULL);
    thrd_join(threads[0], &result);
    thrd_join(threads[1], NULL);
    return result != 7 || word != 2;
}
