/* What gcc's and clang's -fsanitize=thread put before each access. */
#include "words.h"

/* An access that may say something new. */
static __attribute__((noinline)) void accesses_anew(
    struct thread *thread, uintptr_t address, size_t size, bool is_store, uintptr_t place)
{
    if (size % WORD == 0 && address % WORD == 0)
        access_words(thread, address, size / WORD, is_store, place);
    else
        access_bytes(thread, address, size, is_store, place);
}

static ALWAYS_INLINE void accesses(uintptr_t address, size_t size, bool is_store, uintptr_t place)
{
    struct thread *thread = recorded();

    if (__builtin_expect(!thread || thread->ignored, 0))
        return;
    if (__builtin_expect(is_scheduled, 0) && !--thread->turn.left)
        turn_passes(thread, false);
    if ((size == WORD || size == 2 * WORD) && address % size == 0 && are_kept(thread, address, size / WORD, is_store))
        return;
    accesses_anew(thread, address, size, is_store, place);
}

/* A load and a store of these bytes, with or without the place in the program. */
#define HOOKS(prefix, bytes) \
    PUBLIC void __tsan_##prefix##read##bytes(void *address) \
    { \
        accesses((uintptr_t)address, bytes, false, HERE); \
    } \
    PUBLIC void __tsan_##prefix##write##bytes(void *address) \
    { \
        accesses((uintptr_t)address, bytes, true, HERE); \
    } \
    PUBLIC void __tsan_##prefix##read##bytes##_pc(void *address, void *place) \
    { \
        accesses((uintptr_t)address, bytes, false, (uintptr_t)place); \
    } \
    PUBLIC void __tsan_##prefix##write##bytes##_pc(void *address, void *place) \
    { \
        accesses((uintptr_t)address, bytes, true, (uintptr_t)place); \
    }

/* A load and a store of the same bytes at once. */
#define BOTH(prefix, bytes) \
    PUBLIC void __tsan_##prefix##read_write##bytes(void *address) \
    { \
        accesses((uintptr_t)address, bytes, true, HERE); \
    }

HOOKS(, 1) HOOKS(, 2) HOOKS(, 4) HOOKS(, 8) HOOKS(, 16)
HOOKS(unaligned_, 2) HOOKS(unaligned_, 4) HOOKS(unaligned_, 8) HOOKS(unaligned_, 16)
HOOKS(volatile_, 1) HOOKS(volatile_, 2) HOOKS(volatile_, 4) HOOKS(volatile_, 8) HOOKS(volatile_, 16)
HOOKS(unaligned_volatile_, 2) HOOKS(unaligned_volatile_, 4) HOOKS(unaligned_volatile_, 8) HOOKS(unaligned_volatile_, 16)
BOTH(, 1) BOTH(, 2) BOTH(, 4) BOTH(, 8) BOTH(, 16)
BOTH(unaligned_, 2) BOTH(unaligned_, 4) BOTH(unaligned_, 8) BOTH(unaligned_, 16)

PUBLIC void __tsan_read_range(void *address, unsigned long size)
{
    accesses((uintptr_t)address, size, false, HERE);
}

PUBLIC void __tsan_write_range(void *address, unsigned long size)
{
    accesses((uintptr_t)address, size, true, HERE);
}

PUBLIC void __tsan_read_range_pc(void *address, unsigned long size, void *place)
{
    accesses((uintptr_t)address, size, false, (uintptr_t)place);
}

PUBLIC void __tsan_write_range_pc(void *address, unsigned long size, void *place)
{
    accesses((uintptr_t)address, size, true, (uintptr_t)place);
}

/* C++: a constructor stores which class the object has; the same value again is no store. */
PUBLIC void __tsan_vptr_update(void **address, void *value)
{
    if (*address != value)
        accesses((uintptr_t)address, sizeof *address, true, HERE);
}

PUBLIC void __tsan_vptr_read(void **address)
{
    accesses((uintptr_t)address, sizeof *address, false, HERE);
}

PUBLIC void __tsan_init(void)
{
    trace_begin();
}

PUBLIC void __tsan_func_entry(void *place)
{
    (void)place;
}

PUBLIC void __tsan_func_exit(void)
{
}

/* The program may ask that accesses be left out, and say what else orders. */
PUBLIC void __tsan_ignore_thread_begin(void)
{
    struct thread *thread = recorded();

    if (thread)
        thread->ignored++;
}

PUBLIC void __tsan_ignore_thread_end(void)
{
    struct thread *thread = recorded();

    if (thread && thread->ignored)
        thread->ignored--;
}

PUBLIC void __tsan_release(void *address)
{
    struct object *object = recorded() ? object_at((uintptr_t)address) : NULL;

    if (object)
        hand_on(&object->flags[0], "what the program says is released", HERE);
}

PUBLIC void __tsan_acquire(void *address)
{
    struct object *object = recorded() ? object_at((uintptr_t)address) : NULL;

    if (object)
        take_over(&object->flags[0], HERE);
}
