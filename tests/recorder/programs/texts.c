/* racy: a text is made while its length is asked for */
#include "../threads.h"

char text[8];
size_t size;

static void *one(void *given)
{
    strcpy(text, given ? "" : "text");
    return given;
}

static void *other(void *given)
{
    size = strlen(text);
    return given;
}

int main(void)
{
    run(one, other);
    return 0;
}
