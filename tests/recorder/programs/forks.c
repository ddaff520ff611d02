/* race-free: a child that is forked is left out */
#include "../threads.h"

#include <sys/wait.h>

int word;

int main(void)
{
    word = 1;
    pid_t child = fork();
    if (!child) {
        word = 2;
        _exit(0);
    }
    waitpid(child, NULL, 0);
    return word != 1;
}
