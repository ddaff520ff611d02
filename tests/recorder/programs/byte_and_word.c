/* racy: a byte of a word that is stored to as a whole */
#include "../threads.h"

union {
    int word;
    char bytes[4];
} as;

static void *one(void *given)
{
    as.word = 1;
    return given;
}

static void *other(void *given)
{
    as.bytes[2] = 1;
    return given;
}

int main(void)
{
    run(one, other);
    return 0;
}
