/* racy: a thread is not joined */
#include "../threads.h"

int word;

static void *one(void *given)
{
    word++;
    open_gate(0);
    return given;
}

int main(void)
{
    pthread_t thread;

    pthread_create(&thread, NULL, one, NULL);
    pthread_detach(thread);
    pass_gate(0);
    word++;
    return 0;
}
