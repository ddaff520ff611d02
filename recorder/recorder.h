/*
 * What the parts of the recorder share. docs/PROGRAMS.md says what the recorder does and how it is built.
 *
 *   trace.c    the trace: its lines, who may write, how it ends
 *   words.c    numbers of words; memory that is used again (words.h: what has to be quick)
 *   objects.c  what synchronizes: locks and flags, by address
 *   threads.c  threads: start, end, join; their numbers
 *   locks.c    mutexes, read-write locks, condition variables, barriers, semaphores, once
 *   atomics.c  C11 and C++ atomics and fences
 *   schedule.c a schedule that a seed decides
 *   hooks.c    what the compiler calls before each access
 *   calls.c    calls into the C library that access memory or free it
 */
#ifndef CEVANDLE_RECORDER_H
#define CEVANDLE_RECORDER_H

/* The recorder is the program's memset and memcpy: no loop of its own becomes a call of these. */
#if defined __GNUC__ && !defined __clang__
#pragma GCC optimize("no-tree-loop-distribute-patterns")
#endif

#include <stdatomic.h>
#include <stdbool.h>
#include <stddef.h>
#include <stdint.h>

/* What isn't PUBLIC has no name outside: the program may use the same names. */
#pragma GCC visibility push(hidden)

/* What a trace has. The judge takes more processors; but what it costs goes with how many the first line names. */
enum {
    MOST_PROCESSORS = 64,
    MOST_WORDS = 1 << 20,
    MOST_LOCKS = 1 << 16,
    MOST_FLAGS = 1 << 16,
};

/* How many accesses a thread keeps before it writes them. */
enum { KEPT_ACCESSES = 1 << 13 };

/* How many synchronizations of a thread are told apart. */
#define MOST_INTERVALS ((1u << 31) - 1)

/* What has to be quick is a part of each hook. */
#define ALWAYS_INLINE inline __attribute__((always_inline))

/* No lock, flag or processor. */
#define NONE UINT32_MAX

/* A set of processors. */
struct crowd {
    uint64_t members[MOST_PROCESSORS / 64];
};

/* An access that a thread has made and not written yet. The lowest bit of `place` says that it is a store. */
struct access {
    uint64_t place;
    uint32_t word;
};

/* A flag of the trace, and who has heard of all that set it. */
struct flag {
    uint32_t number;
    bool is_set;
    struct crowd heard;
};

/* The flags of release fences and of values that a thread has read without acquiring them: few. */
enum { MOST_PENDING = 16 };

/* A lock that a thread holds, how often it took it, and whether it is a read-write lock that it may write under. */
struct held {
    const void *lock;
    uint32_t depth;
    bool is_writer;
};

enum { MOST_HELD = 128 };

/* A thread's begin and end, as its parent and who joins it see them. */
struct start {
    void *(*routine)(void *);
    void *argument;
    struct flag begun, ended;
    _Atomic uintptr_t id;
    _Atomic uint32_t is_made;
    bool is_joined;
    struct thread *thread;
    struct start *next;
};

/* What is known of who has a processor's number: nobody had it, one has, one has ended, one was joined. */
enum stage { UNUSED, RUNNING, ENDED, JOINED };

/* With a seed: whether the thread may run, how many accesses are left to it, and what it waits for. */
struct turn {
    _Atomic uint32_t go;
    uint32_t left;
    uint64_t priority;
    const void *awaits;
    uintptr_t place;
    bool is_here, is_away, is_timed, is_at_lock, is_too_late;
};

struct thread {
    uint32_t processor;
    _Atomic int stage;
    /* How often the end was put off, so that what else ends with the thread comes before it. */
    int put_off;
    /* Counts the thread's synchronizations: between two of them like accesses say nothing new. */
    uint32_t interval;
    /* Whether the thread runs the recorder's own code, so nothing is recorded. */
    bool is_inside;
    /* How often the program asked that this thread's accesses be left out. */
    uint32_t ignored;
    _Atomic uint32_t kept;
    struct access accesses[KEPT_ACCESSES];
    /* By the word's number which access was kept last, so that its like is left out. */
    uint32_t remembered[MOST_WORDS + 1];
    struct held held[MOST_HELD];
    uint32_t holds;
    /* The flag of the last release fence, and the flags that an acquire fence takes. */
    struct flag *fence;
    bool is_fence_seen;
    struct flag *pending[MOST_PENDING];
    uint32_t pendings;
    struct start *start;
    struct turn turn;
};

extern __thread struct thread *self __attribute__((tls_model("initial-exec")));

/* trace.c */
void trace_begin(void);
void trace_end(void);
extern _Atomic bool recording;

static inline bool is_recording(void)
{
    return atomic_load_explicit(&recording, memory_order_relaxed);
}

/* Between these a thread has the trace to itself; its own accesses are written first. */
void trace_enter(struct thread *thread);
void trace_leave(struct thread *thread);
/* A line of an event by this thread, inside. `number` NONE leaves the number out. */
void trace_line(struct thread *thread, const char *event, uint32_t number, uintptr_t place);
/* A line that is no event, once for each text; it goes to standard error too. */
void trace_says(const char *text);
/* A line that is no event: what the flag stands for in the program. Inside. */
void trace_names(uint32_t flag, const char *what, uintptr_t place);
/* Writes the thread's accesses. */
void trace_accesses(struct thread *thread);
/* One event with all of this round it. */
void trace_event(const char *event, uint32_t number, uintptr_t place);

/* words.c */
/* An access of these bytes, before it is made. */
void access_bytes(struct thread *thread, uintptr_t address, size_t size, bool is_store, uintptr_t place);
/* An atomic access: it races with none of its kind. */
void access_atomically(struct thread *thread, uintptr_t address, size_t size, uintptr_t place);
/* The bytes are freed: a store to what was touched of them, after which they are new. */
void bytes_are_freed(struct thread *thread, uintptr_t address, size_t size, uintptr_t place);
/* The bytes are new, whoever had them. */
void bytes_are_new(uintptr_t address, size_t size);
/* Marks that something synchronizes at this address, and asks for it. */
void mark_synchronizing(uintptr_t address);
bool is_synchronizing(uintptr_t address);
/* Whether there is room for numbers of words. */
bool words_begin(void);

/* objects.c: what is known of an object that synchronizes, by its address. */

/* The flags of the release sequence that a value belongs to, beside the address's own. */
enum { MOST_FENCES = 4 };

struct object {
    uintptr_t address;
    struct object *next;
    bool is_gone;
    /* As a lock: its number, or NONE. */
    uint32_t lock;
    /* As a mutex: the processor that has it. */
    uint32_t holder;
    /* As a read-write lock writers' and readers' flag, as a barrier its episodes' by turns; for all else the first. */
    struct flag flags[2];
    /* As a barrier: how many meet, and how many have come. */
    uint32_t count, arrivals;
    /* As an atomic: the flag of its own release sequence, whether its value belongs to that, and to which fences'. */
    struct flag *own;
    bool is_released;
    struct flag *fences[MOST_FENCES];
    uint32_t fence_count;
};

/* The object at this address; it is made if there is none. NULL if memory ran out. */
struct object *object_at(uintptr_t address);
void object_gone(uintptr_t address);
/* The same while nobody else has it, or NULL. */
struct object *take_object(uintptr_t address);
void leave_object(uintptr_t address);
uint32_t lock_of(struct object *object);
/* A flag that no one has set. */
struct flag *new_flag(void);
void renew_flag(struct flag *flag);
/* Sets a flag, and awaits one unless the thread has heard of all that set it. Both inside. The first time the trace says what the
   flag stands for in the program. */
void set_flag(struct thread *thread, struct flag *flag, const char *what, uintptr_t place);
void await_flag(struct thread *thread, struct flag *flag, uintptr_t place);
bool has_heard(const struct flag *flag, const struct thread *thread);
/* It waits for a flag that nobody sets. Inside. */
void await_never(struct thread *thread, struct flag *flag, uintptr_t place);
/* The same with the trace round it. */
void hand_on(struct flag *flag, const char *what, uintptr_t place);
void take_over(struct flag *flag, uintptr_t place);

/* atomics.c: the value at this address is one that a release store has left. Nothing else is at hand. */
void release_value(uintptr_t address, uintptr_t place);

/* schedule.c: with a seed, one thread runs at a time; without one these do nothing. */
extern bool is_scheduled;
void schedule_begin(void);
/* The thread waits for its first turn, once who made it may know. */
void turn_begins(struct thread *thread, _Atomic uint32_t *is_made);
void turn_is_made(_Atomic uint32_t *is_made);
void turn_ends(struct thread *thread);
/* Another thread may go on here, or this one. */
void turn_passes(struct thread *thread, bool to_another);
/* With a seed: the thread can't go on until somebody wakes those who wait for this. False if its time was over first. */
bool wait_turn(struct thread *thread, const void *awaits, bool is_timed, bool is_at_lock, uintptr_t place);
void wake(const void *awaited, bool all);
void wake_thread(struct thread *thread);
/* Round a call that waits for something outside. */
void goes_away(struct thread *thread);
void comes_back(struct thread *thread);

/* threads.c */
/* The calling thread; it is given a number if it has none. NULL if nothing is recorded of it. */
struct thread *this_thread(void);
void begin_main_thread(void);
/* The thread that has, or had, this processor's number; NULL if none had. */
struct thread *thread_of(uint32_t processor);

/* calls.c */
/* The next definition of a function: the C library's. */
void *next_definition(const char *name);
void clear(void *room, size_t size);
/* Memory of the recorder's own that the program never saw. */
void give_back(void *room, size_t size);

/* The thread, if what it does is recorded. */
static inline struct thread *recorded(void)
{
    struct thread *thread = self;

    if (__builtin_expect(!thread, 0) && is_recording())
        thread = this_thread();
    return thread && !thread->is_inside ? thread : NULL;
}

/* The same of a thread that is known. A call into the C library makes none known: who starts threads makes such calls, too. */
static inline struct thread *known(void)
{
    return self && !self->is_inside ? self : NULL;
}

#define HERE ((uintptr_t)__builtin_return_address(0))
#define PUBLIC __attribute__((visibility("default")))
/* The C library's function of this name. */
#define NEXT(name) \
    (__extension__({ \
        static __typeof__(&name) found; \
        if (!found) \
            found = (__typeof__(&name))next_definition(#name); \
        found; \
    }))

#pragma GCC visibility pop
#endif
