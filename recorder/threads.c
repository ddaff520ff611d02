/* Threads: how they begin, end and are joined, and which processor of the trace each is. */
#define _GNU_SOURCE
#include "recorder.h"

#include <limits.h>
#include <pthread.h>
#include <sys/mman.h>
#include <threads.h>
#include <time.h>

__thread struct thread *self __attribute__((tls_model("initial-exec")));

static struct thread *_Atomic threads[MOST_PROCESSORS];
static struct start *_Atomic starts;
static pthread_key_t at_end;

/* Stands for a thread of which nothing is recorded. */
static struct thread nobody = {.is_inside = true};

struct thread *thread_of(uint32_t processor)
{
    return atomic_load(&threads[processor]);
}

/* A number that nobody has had. */
static struct thread *unused_thread(void)
{
    for (uint32_t at = 0; at < MOST_PROCESSORS; at++) {
        struct thread *was = NULL;
        if (thread_of(at))
            continue;
        struct thread *made = mmap(NULL, sizeof *made, PROT_READ | PROT_WRITE, MAP_PRIVATE | MAP_ANONYMOUS, -1, 0);
        if (made == MAP_FAILED)
            return NULL;
        made->processor = at;
        made->stage = RUNNING;
        made->interval = 1;
        if (atomic_compare_exchange_strong(&threads[at], &was, made))
            return made;
        give_back(made, sizeof *made);
    }
    return NULL;
}

/* One whose thread is at this stage: it is the new one's from here on. */
static struct thread *thread_again(int stage)
{
    for (uint32_t at = 0; at < MOST_PROCESSORS; at++) {
        struct thread *thread = thread_of(at);
        int was = stage;
        if (thread && atomic_compare_exchange_strong(&thread->stage, &was, RUNNING)) {
            thread->put_off = 0;
            thread->holds = thread->pendings = thread->ignored = 0;
            thread->fence = NULL;
            return thread;
        }
    }
    return NULL;
}

static struct thread *new_thread(void)
{
    struct thread *thread = unused_thread();

    if (!thread)
        thread = thread_again(JOINED);
    if (!thread && (thread = thread_again(ENDED)))
        trace_says("more threads than a trace may have: some go on as others that have ended, after them");
    if (!thread) {
        trace_says("more threads at a time than a trace may have: some are left out");
        return &nobody;
    }
    thread->is_inside = false;
    return thread;
}

struct thread *this_thread(void)
{
    self = new_thread();
    trace_says("a thread's start was not seen, so nothing is ordered before it");
    if (self != &nobody)
        turn_begins(self, NULL);
    return self;
}

static void ends(void *given);

void begin_main_thread(void)
{
    pthread_key_create(&at_end, ends);
    self = new_thread();
    turn_begins(self, NULL);
}

/* The thread's last deed. Other destructors come first: it is put off as often as may be. */
static void ends(void *given)
{
    struct thread *thread = given;

    if (++thread->put_off < PTHREAD_DESTRUCTOR_ITERATIONS && !pthread_setspecific(at_end, thread))
        return;
    hand_on(&thread->start->ended, "a thread's end", 0);
    self = &nobody;
    atomic_store(&thread->stage, ENDED);
    wake(thread->start, true);
    turn_ends(thread);
}

/* What stood on the stack before was another thread's. */
static void stack_is_new(struct thread *thread)
{
    pthread_attr_t attributes;
    void *stack;
    size_t size;

    thread->is_inside = true;
    if (!pthread_getattr_np(pthread_self(), &attributes)) {
        if (!pthread_attr_getstack(&attributes, &stack, &size))
            bytes_are_new((uintptr_t)stack, size);
        pthread_attr_destroy(&attributes);
    }
    thread->is_inside = false;
}

static void *begins(void *given)
{
    struct start *start = given;

    atomic_store(&start->id, (uintptr_t)pthread_self());
    if (is_recording()) {
        self = new_thread();
        if (self != &nobody) {
            self->start = start;
            start->thread = self;
            turn_begins(self, &start->is_made);
            stack_is_new(self);
            take_over(&start->begun, 0);
            pthread_setspecific(at_end, self);
        }
    }
    return start->routine(start->argument);
}

static struct start *new_start(void *(*routine)(void *), void *argument)
{
    struct start *start = mmap(NULL, sizeof *start, PROT_READ | PROT_WRITE, MAP_PRIVATE | MAP_ANONYMOUS, -1, 0);

    if (start == MAP_FAILED)
        return NULL;
    start->routine = routine;
    start->argument = argument;
    renew_flag(&start->begun);
    renew_flag(&start->ended);
    start->next = atomic_load(&starts);
    while (!atomic_compare_exchange_weak(&starts, &start->next, start))
        continue;
    return start;
}

static int create(pthread_t *id, const pthread_attr_t *attributes, void *(*routine)(void *), void *argument, uintptr_t place)
{
    struct start *start = recorded() ? new_start(routine, argument) : NULL;

    if (!start)
        return NEXT(pthread_create)(id, attributes, routine, argument);
    hand_on(&start->begun, "a thread's start", place);
    int fault = NEXT(pthread_create)(id, attributes, begins, start);
    if (fault)
        return fault;
    atomic_store(&start->id, (uintptr_t)*id);
    turn_is_made(&start->is_made);
    turn_passes(self, false);
    return 0;
}

PUBLIC int pthread_create(pthread_t *id, const pthread_attr_t *attributes, void *(*routine)(void *), void *argument)
{
    return create(id, attributes, routine, argument, HERE);
}

/* The last one that was started and had this identity. */
static struct start *start_of(pthread_t id)
{
    for (struct start *start = atomic_load(&starts); start; start = start->next)
        if (atomic_load(&start->id) == (uintptr_t)id && !start->is_joined)
            return start;
    return NULL;
}

static int joined(int fault, struct start *start, uintptr_t place)
{
    if (fault || !start)
        return fault;
    start->is_joined = true;
    take_over(&start->ended, place);
    if (start->thread) {
        int was = ENDED;
        atomic_compare_exchange_strong(&start->thread->stage, &was, JOINED);
    }
    return 0;
}

/* With a seed: until the thread has ended. */
static void wait_for_end(struct start *start, uintptr_t place)
{
    struct thread *thread = recorded();

    while (is_scheduled && thread && start && start->thread && atomic_load(&start->thread->stage) == RUNNING
        && start->thread->start == start)
        wait_turn(thread, start, false, false, place);
}

PUBLIC int pthread_join(pthread_t id, void **result)
{
    struct start *start = start_of(id);

    wait_for_end(start, HERE);
    return joined(NEXT(pthread_join)(id, result), start, HERE);
}

/* With a seed: a wait for a condition ends, since it may be cancelled. */
PUBLIC int pthread_cancel(pthread_t id)
{
    int fault = NEXT(pthread_cancel)(id);
    struct start *start = is_scheduled && !fault ? start_of(id) : NULL;

    if (start && start->thread)
        wake_thread(start->thread);
    return fault;
}

PUBLIC int pthread_tryjoin_np(pthread_t id, void **result)
{
    struct start *start = start_of(id);

    return joined(NEXT(pthread_tryjoin_np)(id, result), start, HERE);
}

PUBLIC int pthread_timedjoin_np(pthread_t id, void **result, const struct timespec *until)
{
    struct start *start = start_of(id);

    return joined(NEXT(pthread_timedjoin_np)(id, result, until), start, HERE);
}

PUBLIC int pthread_clockjoin_np(pthread_t id, void **result, clockid_t clock, const struct timespec *until)
{
    struct start *start = start_of(id);

    return joined(NEXT(pthread_clockjoin_np)(id, result, clock, until), start, HERE);
}

/* C11's threads are those of POSIX; their functions return numbers. */
struct body {
    thrd_start_t routine;
    void *argument;
};

static void *runs(void *given)
{
    struct body body = *(struct body *)given;

    give_back(given, sizeof body);
    return (void *)(intptr_t)body.routine(body.argument);
}

PUBLIC int thrd_create(thrd_t *id, thrd_start_t routine, void *argument)
{
    struct body *body = mmap(NULL, sizeof *body, PROT_READ | PROT_WRITE, MAP_PRIVATE | MAP_ANONYMOUS, -1, 0);

    if (body == MAP_FAILED)
        return thrd_nomem;
    *body = (struct body){routine, argument};
    return create((pthread_t *)id, NULL, runs, body, HERE) ? thrd_error : thrd_success;
}

PUBLIC int thrd_join(thrd_t id, int *result)
{
    struct start *start = start_of(id);
    void *returned;

    wait_for_end(start, HERE);
    if (joined(NEXT(pthread_join)(id, &returned), start, HERE))
        return thrd_error;
    if (result)
        *result = (int)(intptr_t)returned;
    return thrd_success;
}

PUBLIC _Noreturn void thrd_exit(int result)
{
    pthread_exit((void *)(intptr_t)result);
}
