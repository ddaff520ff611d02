/* race-free: what a thread did comes before who joins it */
#include "../threads.h"

int word;

static void *one(void *given)
{
    word++;
    return given;
}

int main(void)
{
    pthread_t thread;

    for (int at = 0; at < 3; at++) {
        word++;
        pthread_create(&thread, NULL, one, NULL);
        pthread_join(thread, NULL);
    }
    return word != 6;
}
