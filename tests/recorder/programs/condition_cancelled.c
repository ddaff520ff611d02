/* race-free: a thread that is cancelled in a wait has its mutex again, and frees it */
#include "../threads.h"

static pthread_mutex_t mutex = PTHREAD_MUTEX_INITIALIZER;
int word;
static pthread_cond_t changed = PTHREAD_COND_INITIALIZER;

static void frees(void *given)
{
    (void)given;
    word++;
    pthread_mutex_unlock(&mutex);
}

static void *waits(void *given)
{
    pthread_mutex_lock(&mutex);
    word++;
    open_gate(0);
    pthread_cleanup_push(frees, NULL);
    for (;;)
        pthread_cond_wait(&changed, &mutex);
    pthread_cleanup_pop(1);
    return given;
}

int main(void)
{
    pthread_t thread;

    pthread_create(&thread, NULL, waits, NULL);
    pass_gate(0);
    pthread_cancel(thread);
    pthread_join(thread, NULL);
    pthread_mutex_lock(&mutex);
    word++;
    pthread_mutex_unlock(&mutex);
    return 0;
}
