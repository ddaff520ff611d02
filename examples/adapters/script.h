/*
 * script.h: reads a script of `lrc draw` from standard input, and runs each section on a thread of its own.
 *
 *     read_script()       reads it into `script`; ends the program with a line on standard error if it can't
 *     print_sizes()       prints the trace's first line
 *     run_script(calls)   makes these calls: each section's, a closing barrier, and the loads of the shown words
 *
 * An adapter gives the calls of its memory, and prints the trace's lines in them.
 */
#ifndef SCRIPT_H
#define SCRIPT_H

#include <pthread.h>
#include <sched.h>
#include <stdint.h>
#include <stdio.h>
#include <stdlib.h>
#include <string.h>

enum { MOST_PROCESSORS = 16, MOST_INSTRUCTIONS = 10000, MOST_SHOWN = 64 };

/* The first letters of an instruction, and its numbers. */
struct instruction {
    char name[8];
    int number;
    uint32_t value;
};

struct script {
    int processors, pages, words, locks, flags;
    struct instruction sections[MOST_PROCESSORS][MOST_INSTRUCTIONS];
    int lengths[MOST_PROCESSORS];
    int shown[MOST_SHOWN], shown_count;
};

/* What a memory can do, each for a processor. An acquire, a barrier and an await return once they may. */
struct memory_calls {
    void (*begin)(int processor); /* first in its thread; may be null */
    uint32_t (*load)(int processor, int address);
    void (*store)(int processor, int address, uint32_t value);
    void (*acquire)(int processor, int lock);
    void (*release)(int processor, int lock);
    void (*barrier)(int processor);
    void (*set)(int processor, int flag);
    void (*await)(int processor, int flag);
};

static struct script script;
static struct memory_calls memory_calls;
static pthread_barrier_t start;

static void refuse(const char *line)
{
    fprintf(stderr, "adapter: this is no line of a script: %s", line);
    exit(EXIT_FAILURE);
}

static void read_shown(char *words)
{
    for (char *word = strtok(words, " \n"); word; word = strtok(NULL, " \n"))
        if (script.shown_count < MOST_SHOWN)
            script.shown[script.shown_count++] = atoi(word);
}

static void read_instruction(const char *line, int processor)
{
    struct instruction read = {.name = ""};

    if (processor < 0 || processor >= script.processors || script.lengths[processor] == MOST_INSTRUCTIONS ||
        sscanf(line, "%7s %d %u", read.name, &read.number, &read.value) < 1)
        refuse(line);
    script.sections[processor][script.lengths[processor]++] = read;
}

static void read_script(void)
{
    static char line[4096];
    int processor = -1;

    if (!fgets(line, sizeof line, stdin) || sscanf(line, "cluster %d %d %d %d %d", &script.processors, &script.pages,
        &script.words, &script.locks, &script.flags) < 4 || script.processors < 1 || script.processors > MOST_PROCESSORS)
        refuse(line);
    while (fgets(line, sizeof line, stdin)) {
        if (strncmp(line, "show ", 5) == 0)
            read_shown(line + 5);
        else if (sscanf(line, "p %d", &processor) != 1)
            read_instruction(line, processor);
    }
}

/* The first line of the trace is that of the script. */
static inline void print_sizes(void)
{
    setvbuf(stdout, NULL, _IOLBF, 0); /* a hang or a crash shows how far it came */
    printf("cluster %d %d %d %d", script.processors, script.pages, script.words, script.locks);
    printf(script.flags ? " %d\n" : "\n", script.flags);
}

static void do_instruction(int processor, const struct instruction *it)
{
    if (strcmp(it->name, "load") == 0)
        memory_calls.load(processor, it->number);
    else if (strcmp(it->name, "store") == 0)
        memory_calls.store(processor, it->number, it->value);
    else if (strcmp(it->name, "add") == 0)
        memory_calls.store(processor, it->number, memory_calls.load(processor, it->number) + it->value);
    else if (strcmp(it->name, "acquire") == 0)
        memory_calls.acquire(processor, it->number);
    else if (strcmp(it->name, "release") == 0)
        memory_calls.release(processor, it->number);
    else if (strcmp(it->name, "barrier") == 0)
        memory_calls.barrier(processor);
    else if (strcmp(it->name, "set") == 0)
        memory_calls.set(processor, it->number);
    else if (strcmp(it->name, "await") == 0)
        memory_calls.await(processor, it->number);
}

/* A section, the closing barrier, and what processor 0 shows. Threads begin together, so that they meet. */
static void *run_section(void *argument)
{
    int processor = (int)(intptr_t)argument;

    pthread_barrier_wait(&start);
    if (memory_calls.begin)
        memory_calls.begin(processor);
    for (int at = 0; at < script.lengths[processor]; at++) {
        do_instruction(processor, &script.sections[processor][at]);
        if (at % 3 == processor % 3)
            sched_yield();
    }
    memory_calls.barrier(processor);
    for (int at = 0; processor == 0 && at < script.shown_count; at++)
        memory_calls.load(processor, script.shown[at]);
    return NULL;
}

static void run_script(struct memory_calls calls)
{
    pthread_t threads[MOST_PROCESSORS];

    memory_calls = calls;
    pthread_barrier_init(&start, NULL, script.processors);
    for (int at = 0; at < script.processors; at++)
        if (pthread_create(&threads[at], NULL, run_section, (void *)(intptr_t)at))
            exit(EXIT_FAILURE);
    for (int at = 0; at < script.processors; at++)
        pthread_join(threads[at], NULL);
    exit(fflush(stdout) ? EXIT_FAILURE : EXIT_SUCCESS);
}

#endif
