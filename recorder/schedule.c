/*
 * A schedule that a seed decides: one thread runs at a time.
 *
 * With CEVANDLE_SEED=N the recorder lets one thread run, the others wait. At each synchronization, and after drawn numbers of
 * accesses, it draws who is next: of an even seed uniformly, of an odd one by priorities that change at drawn points
 * (Burckhardt, Kothari, Musuvathi and Nagarakatte, ASPLOS 2010). Locks, conditions, barriers and joins wait by `wait_turn`, so
 * it is known who can go on. If nobody can, the program hangs, and ends. A thread in a call that waits for something outside
 * is away; one that does nothing for a while is taken to be so.
 */
#define _GNU_SOURCE
#include "recorder.h"

#include <errno.h>
#include <linux/futex.h>
#include <stdlib.h>
#include <sys/syscall.h>
#include <time.h>
#include <unistd.h>

/* After how many accesses the turn passes at the latest, how many of 1024 points lower a priority, at one of how many points a
 * wait's time is over, how many seconds one waits for a thread that does nothing, and the status of a program that hangs. */
enum { MOST_ACCESSES = 256, LOWERED = 32, TIMELY = 256, PATIENCE = 1, HANGS = 3 };

bool is_scheduled;

static uint64_t drawn;
static bool by_priority;
static uint64_t lowest = UINT64_MAX / 2;

/* Guards what is known of turns. */
static _Atomic int guard;
/* Who runs, and how often something was done: to see whether somebody does nothing. */
static struct thread *_Atomic runs_now;
static _Atomic uint64_t deeds;

static void take_guard(void)
{
    while (atomic_exchange(&guard, 1))
        syscall(SYS_sched_yield);
}

static void leave_guard(void)
{
    atomic_store(&guard, 0);
}

/* SplitMix64 (Steele, Lea and Flood, OOPSLA 2014). */
static uint64_t draw(uint64_t below)
{
    uint64_t it = drawn += 0x9e3779b97f4a7c15u;

    it = (it ^ it >> 30) * 0xbf58476d1ce4e5b9u;
    it = (it ^ it >> 27) * 0x94d049bb133111ebu;
    return (it ^ it >> 31) % below;
}

void schedule_begin(void)
{
    const char *seed = getenv("CEVANDLE_SEED");

    if (!seed || !*seed)
        return;
    drawn = strtoull(seed, NULL, 10);
    by_priority = drawn & 1;
    is_scheduled = true;
}

static bool can_run(const struct thread *thread)
{
    return thread && thread->turn.is_here && !thread->turn.awaits;
}

/* The thread that is next of those for which this holds; NULL if there is none. */
static struct thread *drawn_of(bool (*is_meant)(const struct thread *))
{
    struct thread *found = NULL;
    uint64_t count = 0;

    for (uint32_t at = 0; at < MOST_PROCESSORS; at++) {
        struct thread *thread = thread_of(at);
        if (!thread || !is_meant(thread))
            continue;
        count++;
        if (by_priority ? !found || thread->turn.priority > found->turn.priority : draw(count) == 0)
            found = thread;
    }
    return found;
}

static bool has_time(const struct thread *thread)
{
    return thread->turn.is_here && thread->turn.awaits && thread->turn.is_timed;
}

static bool is_away(const struct thread *thread)
{
    return thread->turn.is_away;
}

/* Nobody can go on: the trace tells for what each thread waits that waits for no lock. */
static _Noreturn void hang(void)
{
    for (uint32_t at = 0; at < MOST_PROCESSORS; at++) {
        struct thread *thread = thread_of(at);
        if (thread && thread->turn.awaits && !thread->turn.is_at_lock) {
            struct flag *never = new_flag();
            trace_enter(thread);
            await_never(thread, never, thread->turn.place);
            trace_leave(thread);
        }
    }
    trace_says("the program hangs: every thread waits");
    trace_end();
    syscall(SYS_exit_group, HANGS);
    __builtin_unreachable();
}

/* A thread whose wait is over by its time: at drawn points, and if nobody else can go on. */
static struct thread *too_late(bool is_due)
{
    struct thread *thread = is_due || draw(TIMELY) == 0 ? drawn_of(has_time) : NULL;

    if (thread) {
        thread->turn.awaits = NULL;
        thread->turn.is_too_late = true;
    }
    return thread;
}

/* Lets the next thread run. The guard is held. */
static void choose(void)
{
    struct thread *next = drawn_of(can_run);

    if (too_late(!next))
        next = drawn_of(can_run);
    if (!next && !drawn_of(is_away)) {
        leave_guard();
        hang();
    }
    atomic_store(&runs_now, next);
    if (next) {
        next->turn.left = 1 + (uint32_t)draw(MOST_ACCESSES);
        atomic_store(&next->turn.go, 1);
        syscall(SYS_futex, &next->turn.go, FUTEX_WAKE_PRIVATE, 1, NULL, NULL, 0);
    }
}

/* The thread that runs has done nothing for a while: it is away. */
static void take_from_idle(uint64_t seen)
{
    take_guard();
    struct thread *idle = atomic_load(&runs_now);
    if (idle && atomic_load(&deeds) == seen) {
        idle->turn.is_away = true;
        idle->turn.is_here = false;
        choose();
    }
    leave_guard();
}

/* Waits until it is the thread's turn. */
static void wait_until_chosen(struct thread *thread)
{
    const struct timespec patience = {PATIENCE, 0};

    while (!atomic_load(&thread->turn.go)) {
        uint64_t seen = atomic_load(&deeds);
        if (syscall(SYS_futex, &thread->turn.go, FUTEX_WAIT_PRIVATE, 0, &patience, NULL, 0) && errno == ETIMEDOUT)
            take_from_idle(seen);
    }
    atomic_store(&thread->turn.go, 0);
}

/* The thread comes to where it needs its turn. */
static void come(struct thread *thread)
{
    take_guard();
    thread->turn.is_away = false;
    thread->turn.is_here = true;
    if (!atomic_load(&runs_now))
        choose();
    leave_guard();
    wait_until_chosen(thread);
}

void turn_begins(struct thread *thread, _Atomic uint32_t *is_made)
{
    if (!is_scheduled)
        return;
    take_guard();
    thread->turn = (struct turn){.is_here = true, .priority = UINT64_MAX / 2 + 1 + draw(UINT64_MAX / 2)};
    if (!atomic_load(&runs_now))
        choose();
    leave_guard();
    if (is_made) {
        atomic_store(is_made, 1);
        syscall(SYS_futex, is_made, FUTEX_WAKE_PRIVATE, 1, NULL, NULL, 0);
    }
    wait_until_chosen(thread);
}

/* Who makes a thread keeps its turn until the new one waits for its own: so nothing depends on how fast it comes. */
void turn_is_made(_Atomic uint32_t *is_made)
{
    while (is_scheduled && !atomic_load(is_made))
        syscall(SYS_futex, is_made, FUTEX_WAIT_PRIVATE, 0, NULL, NULL, 0);
}

/* If the turn was taken from the thread it waits for the next one. */
static bool had_turn(struct thread *thread)
{
    atomic_fetch_add(&deeds, 1);
    if (atomic_load(&runs_now) == thread)
        return true;
    come(thread);
    return false;
}

void turn_passes(struct thread *thread, bool to_another)
{
    if (!is_scheduled || !had_turn(thread))
        return;
    take_guard();
    if (to_another || draw(1024) < LOWERED)
        thread->turn.priority = lowest--;
    choose();
    leave_guard();
    wait_until_chosen(thread);
}

bool wait_turn(struct thread *thread, const void *awaits, bool is_timed, bool is_at_lock, uintptr_t place)
{
    had_turn(thread);
    take_guard();
    thread->turn.awaits = awaits;
    thread->turn.is_timed = is_timed;
    thread->turn.is_at_lock = is_at_lock;
    thread->turn.is_too_late = false;
    thread->turn.place = place;
    choose();
    leave_guard();
    wait_until_chosen(thread);
    return !thread->turn.is_too_late;
}

static const void *woken;

static bool waits_for_woken(const struct thread *thread)
{
    return thread->turn.awaits == woken;
}

void wake(const void *awaited, bool all)
{
    struct thread *thread;

    if (!is_scheduled)
        return;
    take_guard();
    woken = awaited;
    while ((thread = drawn_of(waits_for_woken))) {
        thread->turn.awaits = NULL;
        if (!all)
            break;
    }
    leave_guard();
}

void wake_thread(struct thread *thread)
{
    take_guard();
    if (!thread->turn.is_at_lock)
        thread->turn.awaits = NULL;
    leave_guard();
}

void turn_ends(struct thread *thread)
{
    if (!is_scheduled)
        return;
    had_turn(thread);
    take_guard();
    thread->turn.is_here = false;
    choose();
    leave_guard();
}

void goes_away(struct thread *thread)
{
    if (!is_scheduled)
        return;
    had_turn(thread);
    take_guard();
    thread->turn.is_away = true;
    thread->turn.is_here = false;
    choose();
    leave_guard();
}

void comes_back(struct thread *thread)
{
    if (is_scheduled)
        come(thread);
}
