/*
 * toy: runs a script on the toy memory of examples/checking/toy.h. With the word `stale` the memory has its bug.
 *
 *     cc -pthread -o toy examples/adapters/toy.c
 *     tools/torture ./toy stale
 */
#include "../checking/toy.h"
#include "script.h"

static void meet(int processor)
{
    toy_arrive(processor);
    toy_depart(processor);
}

int main(int count, char **words)
{
    toy_is_stale = count == 2 && strcmp(words[1], "stale") == 0;
    read_script();
    toy_begin(script.processors, script.pages, script.words, script.locks, script.flags);
    run_script((struct memory_calls){NULL, toy_load, toy_store, toy_acquire, toy_release, meet, toy_set_flag, toy_await_flag});
}
