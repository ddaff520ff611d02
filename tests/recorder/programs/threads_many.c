/* race-free: more threads one after another than a trace has processors */
#include "../threads.h"

int word;

static void *one(void *given)
{
    word++;
    return given;
}

int main(void)
{
    pthread_t thread;

    for (int at = 0; at < 100; at++) {
        pthread_create(&thread, NULL, one, NULL);
        pthread_join(thread, NULL);
    }
    return word != 100;
}
