/* Mutexes, condition variables, read-write locks, spin locks, barriers, semaphores and what is done once. */
#define _GNU_SOURCE
#include "recorder.h"

#include <errno.h>
#include <pthread.h>
#include <semaphore.h>
#include <threads.h>
#include <time.h>

static struct held *held_by(struct thread *thread, const void *lock)
{
    for (uint32_t at = thread->holds; at > 0; at--)
        if (thread->held[at - 1].lock == lock)
            return &thread->held[at - 1];
    return NULL;
}

static void hold(struct thread *thread, const void *lock, bool is_writer)
{
    if (thread->holds < MOST_HELD)
        thread->held[thread->holds++] = (struct held){lock, 1, is_writer};
    else
        trace_says("a thread holds more locks than the recorder keeps: some order is left out");
}

static void let_go(struct thread *thread, struct held *held)
{
    *held = thread->held[--thread->holds];
}

/* A mutex whose holder has ended is free for the next one: the trace says that the holder released it. */
static void release_for_holder(struct object *object, uintptr_t place)
{
    struct thread *holder = object->holder < MOST_PROCESSORS ? thread_of(object->holder) : NULL;
    struct held *held = holder ? held_by(holder, (const void *)object->address) : NULL;

    if (!held)
        return;
    let_go(holder, held);
    trace_line(holder, "release", lock_of(object), place);
}

/* The lock was taken: this comes after it. */
static void acquired(struct thread *thread, const void *lock, int fault, uintptr_t place)
{
    struct object *object = object_at((uintptr_t)lock);

    if (!object)
        return;
    trace_enter(thread);
    if (fault == EOWNERDEAD)
        release_for_holder(object, place);
    object->holder = thread->processor;
    hold(thread, lock, false);
    trace_line(thread, "acquire", lock_of(object), place);
    trace_leave(thread);
}

/* The lock is asked for, and somebody has it: this comes before the wait. */
static void asked(struct thread *thread, const void *lock, uintptr_t place)
{
    struct object *object = object_at((uintptr_t)lock);

    if (!object)
        return;
    trace_enter(thread);
    trace_line(thread, "ask", lock_of(object), place);
    trace_leave(thread);
}

/* The lock is about to be freed. If another thread took it, it is another lock from here on. */
static void releases(struct thread *thread, const void *lock, uintptr_t place)
{
    struct held *held = held_by(thread, lock);
    struct object *object = object_at((uintptr_t)lock);

    if (!object || (held && --held->depth))
        return;
    trace_enter(thread);
    if (held) {
        let_go(thread, held);
        trace_line(thread, "release", lock_of(object), place);
    } else {
        trace_says("a mutex is freed by a thread that does not hold it: what that orders is left out");
        object->lock = NONE;
    }
    trace_leave(thread);
}

static int took(struct thread *thread, const void *lock, int fault, uintptr_t place)
{
    struct held *held;

    if (!thread || (fault && fault != EOWNERDEAD))
        return fault;
    if ((held = held_by(thread, lock)))
        held->depth++;
    else
        acquired(thread, lock, fault, place);
    return fault;
}

/* How a lock is taken if it is free: 0, EBUSY if somebody has it, or another fault. */
typedef int attempt(void *lock);

static int try_mutex(void *lock)
{
    return NEXT(pthread_mutex_trylock)(lock);
}

static int try_spin_lock(void *lock)
{
    return NEXT(pthread_spin_trylock)(lock);
}

static int try_read(void *lock)
{
    return NEXT(pthread_rwlock_tryrdlock)(lock);
}

static int try_write(void *lock)
{
    return NEXT(pthread_rwlock_trywrlock)(lock);
}

static int try_semaphore(void *semaphore)
{
    return !NEXT(sem_trywait)(semaphore) ? 0 : errno == EAGAIN ? EBUSY : errno;
}

/* With a seed: tries at each turn, up to the end of its time if that counts. */
static int take_by_turns(struct thread *thread, void *lock, attempt *attempt, bool is_timed, bool is_at_lock, uintptr_t place)
{
    int fault;

    while ((fault = attempt(lock)) == EBUSY)
        if (!wait_turn(thread, lock, is_timed, is_at_lock, place))
            return ETIMEDOUT;
    return fault;
}

/* With a seed: the lock is free, and another thread may go on. */
static int freed(int fault, const void *lock)
{
    struct thread *thread = is_scheduled ? recorded() : NULL;

    if (thread) {
        wake(lock, true);
        turn_passes(thread, false);
    }
    return fault;
}

static int lock_mutex(pthread_mutex_t *mutex, uintptr_t place)
{
    struct thread *thread = recorded();

    if (!thread || held_by(thread, mutex))
        return took(thread, mutex, NEXT(pthread_mutex_lock)(mutex), place);
    turn_passes(thread, false);
    int fault = try_mutex(mutex);
    if (fault == EBUSY) {
        asked(thread, mutex, place);
        fault = is_scheduled ? take_by_turns(thread, mutex, try_mutex, false, true, place) : NEXT(pthread_mutex_lock)(mutex);
    }
    return took(thread, mutex, fault, place);
}

static int unlock_mutex(pthread_mutex_t *mutex, uintptr_t place)
{
    struct thread *thread = recorded();

    if (thread)
        releases(thread, mutex, place);
    return freed(NEXT(pthread_mutex_unlock)(mutex), mutex);
}

/* A lock with a time, which with a seed is over once nobody else can go on. */
#define UNTIL(lock, attempt, call, took) \
    struct thread *thread = recorded(); \
    if (!thread || !is_scheduled || held_by(thread, lock)) \
        return took(call); \
    turn_passes(thread, false); \
    return took(take_by_turns(thread, lock, attempt, true, false, HERE))

#define TOOK_MUTEX(fault) took(recorded(), mutex, fault, HERE)
#define TOOK_READ(fault) took_shared(lock, fault, false, HERE)
#define TOOK_WRITE(fault) took_shared(lock, fault, true, HERE)

PUBLIC int pthread_mutex_lock(pthread_mutex_t *mutex)
{
    return lock_mutex(mutex, HERE);
}

PUBLIC int pthread_mutex_trylock(pthread_mutex_t *mutex)
{
    return took(recorded(), mutex, NEXT(pthread_mutex_trylock)(mutex), HERE);
}

PUBLIC int pthread_mutex_timedlock(pthread_mutex_t *mutex, const struct timespec *until)
{
    UNTIL(mutex, try_mutex, NEXT(pthread_mutex_timedlock)(mutex, until), TOOK_MUTEX);
}

PUBLIC int pthread_mutex_clocklock(pthread_mutex_t *mutex, clockid_t clock, const struct timespec *until)
{
    UNTIL(mutex, try_mutex, NEXT(pthread_mutex_clocklock)(mutex, clock, until), TOOK_MUTEX);
}

PUBLIC int pthread_mutex_unlock(pthread_mutex_t *mutex)
{
    return unlock_mutex(mutex, HERE);
}

PUBLIC int pthread_mutex_destroy(pthread_mutex_t *mutex)
{
    object_gone((uintptr_t)mutex);
    return NEXT(pthread_mutex_destroy)(mutex);
}

PUBLIC int pthread_spin_lock(pthread_spinlock_t *lock)
{
    struct thread *thread = recorded();

    if (!thread || !is_scheduled)
        return took(thread, (const void *)lock, NEXT(pthread_spin_lock)(lock), HERE);
    turn_passes(thread, false);
    int fault = try_spin_lock((void *)lock);
    if (fault == EBUSY) {
        asked(thread, (const void *)lock, HERE);
        fault = take_by_turns(thread, (void *)lock, try_spin_lock, false, true, HERE);
    }
    return took(thread, (const void *)lock, fault, HERE);
}

PUBLIC int pthread_spin_trylock(pthread_spinlock_t *lock)
{
    return took(recorded(), (const void *)lock, NEXT(pthread_spin_trylock)(lock), HERE);
}

PUBLIC int pthread_spin_unlock(pthread_spinlock_t *lock)
{
    struct thread *thread = recorded();

    if (thread)
        releases(thread, (const void *)lock, HERE);
    return freed(NEXT(pthread_spin_unlock)(lock), (const void *)lock);
}

PUBLIC int pthread_spin_destroy(pthread_spinlock_t *lock)
{
    object_gone((uintptr_t)lock);
    return NEXT(pthread_spin_destroy)(lock);
}

/* A wait for a condition frees its mutex, and takes it again whatever ends the wait, a cancellation too. */
struct wait {
    struct thread *thread;
    pthread_mutex_t *mutex;
    uint32_t depth;
    uintptr_t place;
};

static struct wait wait_begins(pthread_mutex_t *mutex, uintptr_t place)
{
    struct thread *thread = recorded();
    struct held *held = thread ? held_by(thread, mutex) : NULL;
    struct wait wait = {held ? thread : NULL, mutex, held ? held->depth : 0, place};

    if (held) {
        held->depth = 1;
        releases(thread, mutex, place);
    }
    return wait;
}

static void wait_ends(void *given)
{
    struct wait *wait = given;

    if (!wait->thread)
        return;
    acquired(wait->thread, wait->mutex, 0, wait->place);
    struct held *held = held_by(wait->thread, wait->mutex);
    if (held)
        held->depth = wait->depth;
}

/* With a seed: the wait is over when somebody signals, or its time is once nobody else can go on. */
static int wait_by_turns(const void *condition, pthread_mutex_t *mutex, bool is_timed, uintptr_t place)
{
    struct thread *thread = self;

    NEXT(pthread_mutex_unlock)(mutex);
    wake(mutex, true);
    bool is_signalled = wait_turn(thread, condition, is_timed, false, place);
    take_by_turns(thread, mutex, try_mutex, false, false, place);
    return is_signalled ? 0 : ETIMEDOUT;
}

#define WAIT(mutex, place, is_timed, call) \
    if (is_scheduled) \
        pthread_testcancel(); \
    struct wait wait = wait_begins(mutex, place); \
    if (is_scheduled && wait.thread) { \
        int result = wait_by_turns(condition, mutex, is_timed, place); \
        wait_ends(&wait); \
        pthread_testcancel(); \
        return result; \
    } \
    int fault; \
    pthread_cleanup_push(wait_ends, &wait); \
    fault = call; \
    pthread_cleanup_pop(1); \
    return fault

PUBLIC int pthread_cond_wait(pthread_cond_t *condition, pthread_mutex_t *mutex)
{
    WAIT(mutex, HERE, false, NEXT(pthread_cond_wait)(condition, mutex));
}

PUBLIC int pthread_cond_timedwait(pthread_cond_t *condition, pthread_mutex_t *mutex, const struct timespec *until)
{
    WAIT(mutex, HERE, true, NEXT(pthread_cond_timedwait)(condition, mutex, until));
}

PUBLIC int pthread_cond_clockwait(
    pthread_cond_t *condition, pthread_mutex_t *mutex, clockid_t clock, const struct timespec *until)
{
    WAIT(mutex, HERE, true, NEXT(pthread_cond_clockwait)(condition, mutex, clock, until));
}

/* With a seed it is drawn who of those that wait goes on. */
PUBLIC int pthread_cond_signal(pthread_cond_t *condition)
{
    wake(condition, false);
    return NEXT(pthread_cond_signal)(condition);
}

PUBLIC int pthread_cond_broadcast(pthread_cond_t *condition)
{
    wake(condition, true);
    return NEXT(pthread_cond_broadcast)(condition);
}

/* Who frees a read-write lock sets its writers' or its readers' flag. A reader awaits the writers', a writer both. */
static int took_shared(const void *lock, int fault, bool is_writer, uintptr_t place)
{
    struct thread *thread = recorded();
    struct object *object = thread && !fault ? object_at((uintptr_t)lock) : NULL;

    if (!object)
        return fault;
    trace_enter(thread);
    hold(thread, lock, is_writer);
    await_flag(thread, &object->flags[0], place);
    if (is_writer)
        await_flag(thread, &object->flags[1], place);
    trace_leave(thread);
    return 0;
}

#define SHARED(lock, attempt, is_timed, call, took) \
    struct thread *thread = is_scheduled ? recorded() : NULL; \
    if (!thread) \
        return took(call); \
    turn_passes(thread, false); \
    return took(take_by_turns(thread, lock, attempt, is_timed, false, HERE))

PUBLIC int pthread_rwlock_rdlock(pthread_rwlock_t *lock)
{
    SHARED(lock, try_read, false, NEXT(pthread_rwlock_rdlock)(lock), TOOK_READ);
}

PUBLIC int pthread_rwlock_tryrdlock(pthread_rwlock_t *lock)
{
    return took_shared(lock, NEXT(pthread_rwlock_tryrdlock)(lock), false, HERE);
}

PUBLIC int pthread_rwlock_timedrdlock(pthread_rwlock_t *lock, const struct timespec *until)
{
    SHARED(lock, try_read, true, NEXT(pthread_rwlock_timedrdlock)(lock, until), TOOK_READ);
}

PUBLIC int pthread_rwlock_clockrdlock(pthread_rwlock_t *lock, clockid_t clock, const struct timespec *until)
{
    SHARED(lock, try_read, true, NEXT(pthread_rwlock_clockrdlock)(lock, clock, until), TOOK_READ);
}

PUBLIC int pthread_rwlock_wrlock(pthread_rwlock_t *lock)
{
    SHARED(lock, try_write, false, NEXT(pthread_rwlock_wrlock)(lock), TOOK_WRITE);
}

PUBLIC int pthread_rwlock_trywrlock(pthread_rwlock_t *lock)
{
    return took_shared(lock, NEXT(pthread_rwlock_trywrlock)(lock), true, HERE);
}

PUBLIC int pthread_rwlock_timedwrlock(pthread_rwlock_t *lock, const struct timespec *until)
{
    SHARED(lock, try_write, true, NEXT(pthread_rwlock_timedwrlock)(lock, until), TOOK_WRITE);
}

PUBLIC int pthread_rwlock_clockwrlock(pthread_rwlock_t *lock, clockid_t clock, const struct timespec *until)
{
    SHARED(lock, try_write, true, NEXT(pthread_rwlock_clockwrlock)(lock, clock, until), TOOK_WRITE);
}

PUBLIC int pthread_rwlock_unlock(pthread_rwlock_t *lock)
{
    struct thread *thread = recorded();
    struct held *held = thread ? held_by(thread, lock) : NULL;
    struct object *object = thread ? object_at((uintptr_t)lock) : NULL;

    if (object) {
        trace_enter(thread);
        if (held && held->is_writer)
            set_flag(thread, &object->flags[0], "a read-write lock's writers", HERE);
        else
            set_flag(thread, &object->flags[1], "a read-write lock's readers", HERE);
        if (held)
            let_go(thread, held);
        trace_leave(thread);
    }
    return freed(NEXT(pthread_rwlock_unlock)(lock), lock);
}

PUBLIC int pthread_rwlock_destroy(pthread_rwlock_t *lock)
{
    object_gone((uintptr_t)lock);
    return NEXT(pthread_rwlock_destroy)(lock);
}

/* The episodes of a barrier set its two flags by turns: the next but one begins once all have left. */
PUBLIC int pthread_barrier_init(pthread_barrier_t *barrier, const pthread_barrierattr_t *attributes, unsigned count)
{
    object_gone((uintptr_t)barrier);
    struct object *object = recorded() ? object_at((uintptr_t)barrier) : NULL;
    if (object)
        object->count = count;
    return NEXT(pthread_barrier_init)(barrier, attributes, count);
}

/* With a seed: the last one that comes wakes the others. */
static int meet_by_turns(struct thread *thread, pthread_barrier_t *barrier, struct object *object, uintptr_t place)
{
    if (object->arrivals % object->count) {
        wait_turn(thread, barrier, false, false, place);
        return 0;
    }
    wake(barrier, true);
    return PTHREAD_BARRIER_SERIAL_THREAD;
}

PUBLIC int pthread_barrier_wait(pthread_barrier_t *barrier)
{
    struct thread *thread = recorded();
    struct object *object = thread ? object_at((uintptr_t)barrier) : NULL;
    struct flag *flag = NULL;

    if (object && object->count) {
        trace_enter(thread);
        flag = &object->flags[object->arrivals++ / object->count % 2];
        set_flag(thread, flag, "a barrier", HERE);
        trace_leave(thread);
    }
    int result = is_scheduled && flag ? meet_by_turns(thread, barrier, object, HERE) : NEXT(pthread_barrier_wait)(barrier);
    if (flag)
        take_over(flag, HERE);
    return result;
}

PUBLIC int pthread_barrier_destroy(pthread_barrier_t *barrier)
{
    object_gone((uintptr_t)barrier);
    return NEXT(pthread_barrier_destroy)(barrier);
}

/* A semaphore orders who takes of it after all who gave: which of them it was can't be seen. */
PUBLIC int sem_post(sem_t *semaphore)
{
    struct object *object = recorded() ? object_at((uintptr_t)semaphore) : NULL;

    if (object)
        hand_on(&object->flags[0], "a semaphore", HERE);
    return freed(NEXT(sem_post)(semaphore), semaphore);
}

static int took_semaphore(sem_t *semaphore, int fault, uintptr_t place)
{
    struct object *object = !fault && recorded() ? object_at((uintptr_t)semaphore) : NULL;

    if (object)
        take_over(&object->flags[0], place);
    return fault;
}

static int as_error(int fault)
{
    if (fault)
        errno = fault;
    return fault ? -1 : 0;
}

#define TOOK_SEMAPHORE(fault) took_semaphore(semaphore, fault, HERE)
#define TAKE_SEMAPHORE(is_timed, call) \
    struct thread *thread = is_scheduled ? recorded() : NULL; \
    if (!thread) \
        return TOOK_SEMAPHORE(call); \
    turn_passes(thread, false); \
    return TOOK_SEMAPHORE(as_error(take_by_turns(thread, semaphore, try_semaphore, is_timed, false, HERE)))

PUBLIC int sem_wait(sem_t *semaphore)
{
    TAKE_SEMAPHORE(false, NEXT(sem_wait)(semaphore));
}

PUBLIC int sem_trywait(sem_t *semaphore)
{
    return took_semaphore(semaphore, NEXT(sem_trywait)(semaphore), HERE);
}

PUBLIC int sem_timedwait(sem_t *semaphore, const struct timespec *until)
{
    TAKE_SEMAPHORE(true, NEXT(sem_timedwait)(semaphore, until));
}

PUBLIC int sem_clockwait(sem_t *semaphore, clockid_t clock, const struct timespec *until)
{
    TAKE_SEMAPHORE(true, NEXT(sem_clockwait)(semaphore, clock, until));
}

PUBLIC int sem_destroy(sem_t *semaphore)
{
    object_gone((uintptr_t)semaphore);
    return NEXT(sem_destroy)(semaphore);
}

/* What is done once is done before all who come to it go on. */
struct errand {
    void (*routine)(void);
    struct object *object;
};

static __thread struct errand errand;

static void does_errand(void)
{
    struct errand mine = errand;

    mine.routine();
    hand_on(&mine.object->flags[0], "what is done once", 0);
}

/* With a seed: it is begun by one thread, and the others wait for that. */
enum { IS_BEGUN = 1, IS_DONE = 2 };

static void do_once_by_turns(struct thread *thread, pthread_once_t *once, struct object *object, uintptr_t place)
{
    while (object->count == IS_BEGUN)
        wait_turn(thread, once, false, false, place);
    object->count = object->count == IS_DONE ? IS_DONE : IS_BEGUN;
}

static int do_once(pthread_once_t *once, void (*routine)(void), uintptr_t place)
{
    struct thread *thread = recorded();
    struct object *object = thread ? object_at((uintptr_t)once) : NULL;

    if (!object)
        return NEXT(pthread_once)(once, routine);
    if (is_scheduled)
        do_once_by_turns(thread, once, object, place);
    struct errand outer = errand;
    errand = (struct errand){routine, object};
    int fault = NEXT(pthread_once)(once, does_errand);
    errand = outer;
    object->count = IS_DONE;
    wake(once, true);
    take_over(&object->flags[0], place);
    return fault;
}

PUBLIC int pthread_once(pthread_once_t *once, void (*routine)(void))
{
    return do_once(once, routine, HERE);
}

/* C11's locks are those of POSIX. */
static int as_thrd(int fault)
{
    return !fault ? thrd_success : fault == EBUSY ? thrd_busy : fault == ETIMEDOUT ? thrd_timedout : thrd_error;
}

PUBLIC int mtx_lock(mtx_t *mutex)
{
    return as_thrd(lock_mutex((pthread_mutex_t *)mutex, HERE));
}

PUBLIC int mtx_trylock(mtx_t *mutex)
{
    return as_thrd(took(recorded(), mutex, NEXT(pthread_mutex_trylock)((pthread_mutex_t *)mutex), HERE));
}

PUBLIC int mtx_timedlock(mtx_t *mutex, const struct timespec *until)
{
    return as_thrd(pthread_mutex_timedlock((pthread_mutex_t *)mutex, until));
}

PUBLIC int mtx_unlock(mtx_t *mutex)
{
    return as_thrd(unlock_mutex((pthread_mutex_t *)mutex, HERE));
}

PUBLIC void mtx_destroy(mtx_t *mutex)
{
    object_gone((uintptr_t)mutex);
    NEXT(mtx_destroy)(mutex);
}

static int wait_for(pthread_cond_t *condition, pthread_mutex_t *mutex, uintptr_t place)
{
    WAIT(mutex, place, false, NEXT(pthread_cond_wait)(condition, mutex));
}

static int wait_until(pthread_cond_t *condition, pthread_mutex_t *mutex, const struct timespec *until, uintptr_t place)
{
    WAIT(mutex, place, true, NEXT(pthread_cond_timedwait)(condition, mutex, until));
}

PUBLIC int cnd_signal(cnd_t *condition)
{
    return as_thrd(pthread_cond_signal((pthread_cond_t *)condition));
}

PUBLIC int cnd_broadcast(cnd_t *condition)
{
    return as_thrd(pthread_cond_broadcast((pthread_cond_t *)condition));
}

PUBLIC int cnd_wait(cnd_t *condition, mtx_t *mutex)
{
    return as_thrd(wait_for((pthread_cond_t *)condition, (pthread_mutex_t *)mutex, HERE));
}

PUBLIC int cnd_timedwait(cnd_t *condition, mtx_t *mutex, const struct timespec *until)
{
    return as_thrd(wait_until((pthread_cond_t *)condition, (pthread_mutex_t *)mutex, until, HERE));
}

PUBLIC void call_once(once_flag *once, void (*routine)(void))
{
    do_once((pthread_once_t *)once, routine, HERE);
}
