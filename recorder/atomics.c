/*
 * C11 and C++ atomics and fences: what each lets go on after what.
 *
 * A release sequence is a flag: its head sets it, and so does each release read-modify-write of it. An acquire awaits the flag
 * of the sequence that its value belongs to. A store that begins a sequence has a new flag, unless it comes after all of the
 * old one's. A relaxed store ends the sequence; after a release fence its value belongs to that of the fence (C++20, 6.9.2.2
 * and 31.11). Each operation is made with its address to itself, so the trace's order is the order of modification.
 */
#include "recorder.h"

/* How an operation is ordered, as the compiler numbers it. */
enum order { RELAXED, CONSUME, ACQUIRE, RELEASE, ACQUIRE_RELEASE, SEQUENTIAL };

static bool acquires(int order)
{
    return order == CONSUME || order == ACQUIRE || order == ACQUIRE_RELEASE || order == SEQUENTIAL;
}

static bool releases(int order)
{
    return order == RELEASE || order == ACQUIRE_RELEASE || order == SEQUENTIAL;
}

/* The value was read without being acquired: a later acquire fence takes it. */
static void is_pending(struct thread *thread, struct flag *flag)
{
    for (uint32_t at = 0; at < thread->pendings; at++)
        if (thread->pending[at] == flag)
            return;
    if (thread->pendings < MOST_PENDING)
        thread->pending[thread->pendings++] = flag;
    else
        trace_says("more values are read before a fence than the recorder keeps: some order is left out");
}

static void reads_pending(struct thread *thread, struct object *object)
{
    if (object->is_released)
        is_pending(thread, object->own);
    for (uint32_t at = 0; at < object->fence_count; at++)
        is_pending(thread, object->fences[at]);
}

static void acquires_value(struct thread *thread, struct object *object, uintptr_t place)
{
    bool is_news = object->is_released && !has_heard(object->own, thread);

    if (!is_news && !object->fence_count)
        return;
    trace_enter(thread);
    if (object->is_released)
        await_flag(thread, object->own, place);
    for (uint32_t at = 0; at < object->fence_count; at++)
        await_flag(thread, object->fences[at], place);
    trace_leave(thread);
}

static void reads(struct thread *thread, struct object *object, int order, uintptr_t place)
{
    if (acquires(order))
        acquires_value(thread, object, place);
    else
        reads_pending(thread, object);
}

/* Begins a sequence, or goes on with the value's. */
static void sets_own(struct thread *thread, struct object *object, bool goes_on, uintptr_t place)
{
    trace_enter(thread);
    if (!object->own || !(goes_on || has_heard(object->own, thread)))
        object->own = new_flag();
    object->is_released = object->own != NULL;
    if (object->own)
        set_flag(thread, object->own, "an atomic's release sequence", place);
    trace_leave(thread);
}

/* The value belongs to the sequence of the thread's last release fence, too. */
static void adds_fence(struct thread *thread, struct object *object)
{
    if (!thread->fence)
        return;
    thread->is_fence_seen = true;
    for (uint32_t at = 0; at < object->fence_count; at++)
        if (object->fences[at] == thread->fence)
            return;
    if (object->fence_count < MOST_FENCES)
        object->fences[object->fence_count++] = thread->fence;
    else
        trace_says("a value belongs to more fences than the recorder keeps: some order is left out");
}

/* Before a store. */
static void stores(struct thread *thread, struct object *object, int order, uintptr_t place)
{
    object->fence_count = 0;
    object->is_released = false;
    if (releases(order))
        sets_own(thread, object, false, place);
    else
        adds_fence(thread, object);
}

/* After a read-modify-write: it reads a value, and goes on with its sequence. */
static void modifies(struct thread *thread, struct object *object, int order, uintptr_t place)
{
    reads(thread, object, order, place);
    if (releases(order)) {
        if (acquires(order))
            object->fence_count = 0;
        sets_own(thread, object, object->is_released, place);
    } else {
        adds_fence(thread, object);
    }
}

void release_value(uintptr_t address, uintptr_t place)
{
    struct thread *thread = recorded();
    struct object *object = thread ? take_object(address) : NULL;

    if (!object)
        return;
    stores(thread, object, RELEASE, place);
    leave_object(address);
}

/* An atomic access: another thread may go on before it. */
static void comes_to(struct thread *thread, uintptr_t address, size_t size, uintptr_t place)
{
    turn_passes(thread, false);
    access_atomically(thread, address, size, place);
}

/* Whether a store of this order, by this thread, has to be known of. */
static bool matters(struct thread *thread, uintptr_t address, int order)
{
    return releases(order) || thread->fence || is_synchronizing(address);
}

typedef uint8_t number8;
typedef uint16_t number16;
typedef uint32_t number32;
typedef uint64_t number64;
__extension__ typedef unsigned __int128 number128;

#define EACH_WIDTH(of) of(8) of(16) of(32) of(64)
#define EACH_OPERATION(of, bits) of(bits, add, +) of(bits, sub, -) of(bits, and, &) of(bits, or, |) of(bits, xor, ^)

/* A load looks once without having the address: what it reads then was stored before anybody synchronized there. */
#define LOAD(bits) \
    PUBLIC number##bits __tsan_atomic##bits##_load(const volatile number##bits *from, int order) \
    { \
        struct thread *thread = recorded(); \
        uintptr_t address = (uintptr_t)from; \
        if (thread) \
            comes_to(thread, address, sizeof *from, HERE); \
        number##bits value = real_load##bits(from); \
        struct object *object = thread && is_synchronizing(address) ? take_object(address) : NULL; \
        if (!object) \
            return value; \
        value = real_load##bits(from); \
        reads(thread, object, order, HERE); \
        leave_object(address); \
        return value; \
    }

#define STORE(bits) \
    PUBLIC void __tsan_atomic##bits##_store(volatile number##bits *to, number##bits value, int order) \
    { \
        struct thread *thread = recorded(); \
        uintptr_t address = (uintptr_t)to; \
        if (thread) \
            comes_to(thread, address, sizeof *to, HERE); \
        struct object *object = thread && matters(thread, address, order) ? take_object(address) : NULL; \
        if (object) \
            stores(thread, object, order, HERE); \
        real_exchange##bits(to, value); \
        if (object) \
            leave_object(address); \
    }

/* A read-modify-write that makes `call`, whose result is what it read. */
#define MODIFY(bits, to, order, call) \
    struct thread *thread = recorded(); \
    uintptr_t address = (uintptr_t)to; \
    if (thread) \
        comes_to(thread, address, sizeof *to, HERE); \
    struct object *object = thread && matters(thread, address, order) ? take_object(address) : NULL; \
    number##bits was = call; \
    if (object) { \
        modifies(thread, object, order, HERE); \
        leave_object(address); \
    } \
    return was

#define EXCHANGE(bits) \
    PUBLIC number##bits __tsan_atomic##bits##_exchange(volatile number##bits *to, number##bits value, int order) \
    { \
        MODIFY(bits, to, order, real_exchange##bits(to, value)); \
    }

#define FETCH(bits, name, sign) \
    PUBLIC number##bits __tsan_atomic##bits##_fetch_##name(volatile number##bits *to, number##bits value, int order) \
    { \
        MODIFY(bits, to, order, real_fetch_##name##bits(to, value)); \
    }

/* An exchange that finds another value only reads. */
#define COMPARE(bits) \
    static bool compare##bits(volatile number##bits *to, number##bits *expected, number##bits value, int order, int otherwise, \
        uintptr_t place) \
    { \
        struct thread *thread = recorded(); \
        uintptr_t address = (uintptr_t)to; \
        if (thread) \
            comes_to(thread, address, sizeof *to, place); \
        bool is_known = thread && (matters(thread, address, order) || matters(thread, address, otherwise)); \
        struct object *object = is_known ? take_object(address) : NULL; \
        number##bits was = real_compare##bits(to, *expected, value); \
        bool is_made = was == *expected; \
        if (object) { \
            if (is_made) \
                modifies(thread, object, order, place); \
            else \
                reads(thread, object, otherwise, place); \
            leave_object(address); \
        } \
        if (!is_made) \
            *expected = was; \
        return is_made; \
    } \
    PUBLIC int __tsan_atomic##bits##_compare_exchange_strong( \
        volatile number##bits *to, number##bits *expected, number##bits value, int order, int otherwise) \
    { \
        return compare##bits(to, expected, value, order, otherwise, HERE); \
    } \
    PUBLIC int __tsan_atomic##bits##_compare_exchange_weak( \
        volatile number##bits *to, number##bits *expected, number##bits value, int order, int otherwise) \
    { \
        return compare##bits(to, expected, value, order, otherwise, HERE); \
    } \
    PUBLIC number##bits __tsan_atomic##bits##_compare_exchange_val( \
        volatile number##bits *to, number##bits expected, number##bits value, int order, int otherwise) \
    { \
        compare##bits(to, &expected, value, order, otherwise, HERE); \
        return expected; \
    }

#define REAL_FETCH(bits, name, sign) \
    static inline number##bits real_fetch_##name##bits(volatile number##bits *to, number##bits value) \
    { \
        return __atomic_fetch_##name(to, value, __ATOMIC_SEQ_CST); \
    }

#define REAL(bits) \
    static inline number##bits real_load##bits(const volatile number##bits *from) \
    { \
        return __atomic_load_n(from, __ATOMIC_SEQ_CST); \
    } \
    static inline number##bits real_exchange##bits(volatile number##bits *to, number##bits value) \
    { \
        return __atomic_exchange_n(to, value, __ATOMIC_SEQ_CST); \
    } \
    static inline number##bits real_compare##bits(volatile number##bits *to, number##bits expected, number##bits value) \
    { \
        __atomic_compare_exchange_n(to, &expected, value, false, __ATOMIC_SEQ_CST, __ATOMIC_SEQ_CST); \
        return expected; \
    } \
    EACH_OPERATION(REAL_FETCH, bits) REAL_FETCH(bits, nand, ~)

/* Of 16 bytes the machine has one instruction, which exchanges if it finds what was expected. */
static inline number128 real_compare128(volatile number128 *to, number128 expected, number128 value)
{
    uint64_t low = (uint64_t)expected, high = (uint64_t)(expected >> 64);

    __asm__ volatile("lock cmpxchg16b %0"
                     : "+m"(*to), "+a"(low), "+d"(high)
                     : "b"((uint64_t)value), "c"((uint64_t)(value >> 64))
                     : "memory", "cc");
    return (number128)high << 64 | low;
}

static inline number128 real_load128(const volatile number128 *from)
{
    return real_compare128((volatile number128 *)from, 0, 0);
}

#define REAL_BY_COMPARING(name, result) \
    static inline number128 real_##name##128(volatile number128 *to, number128 value) \
    { \
        number128 was = real_load128(to), found; \
        while ((found = real_compare128(to, was, result)) != was) \
            was = found; \
        return was; \
    }

#define REAL_FETCH_BY_COMPARING(bits, name, sign) REAL_BY_COMPARING(fetch_##name, was sign value)

REAL_BY_COMPARING(exchange, value)
EACH_OPERATION(REAL_FETCH_BY_COMPARING, 128)
REAL_BY_COMPARING(fetch_nand, ~(was & value))

#define ATOMICS(bits) LOAD(bits) STORE(bits) EXCHANGE(bits) COMPARE(bits) EACH_OPERATION(FETCH, bits) FETCH(bits, nand, ~)

EACH_WIDTH(REAL)
EACH_WIDTH(ATOMICS)
ATOMICS(128)

/* A release fence sets a flag of its own. Until a store's value belongs to it, the next fence may set it again. */
static void fence_releases(struct thread *thread, uintptr_t place)
{
    if (!thread->fence || thread->is_fence_seen)
        thread->fence = new_flag();
    thread->is_fence_seen = false;
    if (!thread->fence)
        return;
    trace_enter(thread);
    set_flag(thread, thread->fence, "a release fence", place);
    trace_leave(thread);
}

static void fence_acquires(struct thread *thread, uintptr_t place)
{
    if (!thread->pendings)
        return;
    trace_enter(thread);
    for (uint32_t at = 0; at < thread->pendings; at++)
        await_flag(thread, thread->pending[at], place);
    trace_leave(thread);
    thread->pendings = 0;
}

PUBLIC void __tsan_atomic_thread_fence(int order)
{
    struct thread *thread = recorded();

    __atomic_thread_fence(__ATOMIC_SEQ_CST);
    if (thread && acquires(order))
        fence_acquires(thread, HERE);
    if (thread && releases(order))
        fence_releases(thread, HERE);
}

PUBLIC void __tsan_atomic_signal_fence(int order)
{
    (void)order;
}

/* C++: a variable of a function is made once; who finds it made comes after that. */
PUBLIC int __cxa_guard_acquire(uint64_t *guard)
{
    int (*next)(uint64_t *) = NEXT(__cxa_guard_acquire);
    int is_mine = next(guard);
    struct thread *thread = is_mine ? NULL : recorded();
    struct object *object = thread ? take_object((uintptr_t)guard) : NULL;

    if (object) {
        acquires_value(thread, object, HERE);
        leave_object((uintptr_t)guard);
    }
    return is_mine;
}

PUBLIC void __cxa_guard_release(uint64_t *guard)
{
    release_value((uintptr_t)guard, HERE);
    NEXT(__cxa_guard_release)(guard);
}
