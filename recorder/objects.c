/* What synchronizes, by its address: locks and flags of the trace. */
#include "recorder.h"

#include <linux/futex.h>
#include <sys/mman.h>
#include <sys/syscall.h>
#include <unistd.h>

enum { ROWS = 1 << 14, AT_ONCE = 1 << 10 };

/* The objects whose addresses fall into one row, and who has it: 0 nobody, 1 one, 2 one and others wait. */
struct row {
    _Atomic int taken;
    struct object *first;
};

static struct row rows[ROWS];
static _Atomic uint32_t next_lock, next_flag;

static struct row *row_of(uintptr_t address)
{
    return &rows[(address >> 2) * 0x9e3779b97f4a7c15u >> 50];
}

static void take_row(struct row *row)
{
    int was = 0;

    if (atomic_compare_exchange_strong(&row->taken, &was, 1))
        return;
    while (atomic_exchange(&row->taken, 2) != 0)
        syscall(SYS_futex, &row->taken, FUTEX_WAIT_PRIVATE, 2, NULL, NULL, 0);
}

static void leave_row(struct row *row)
{
    if (atomic_exchange(&row->taken, 0) == 2)
        syscall(SYS_futex, &row->taken, FUTEX_WAKE_PRIVATE, 1, NULL, NULL, 0);
}

/* Memory that is never given back, and has zeros. The C library's allocator is the program's own. */
static void *room_for(size_t size)
{
    static _Atomic int taken;
    static char *room;
    static size_t left;
    void *found = NULL;

    while (atomic_exchange(&taken, 1))
        continue;
    if (left < size) {
        room = mmap(NULL, AT_ONCE * sizeof(struct object), PROT_READ | PROT_WRITE, MAP_PRIVATE | MAP_ANONYMOUS, -1, 0);
        left = room == MAP_FAILED ? 0 : AT_ONCE * sizeof(struct object);
    }
    if (left >= size) {
        found = room;
        room += size;
        left -= size;
    }
    atomic_store(&taken, 0);
    return found;
}

void renew_flag(struct flag *flag)
{
    clear(flag, sizeof *flag);
    flag->number = NONE;
}

struct flag *new_flag(void)
{
    struct flag *flag = room_for(sizeof *flag);

    if (flag)
        renew_flag(flag);
    return flag;
}

static void renew(struct object *object, uintptr_t address)
{
    struct object *next = object->next;

    clear(object, sizeof *object);
    object->next = next;
    object->address = address;
    object->lock = NONE;
    renew_flag(&object->flags[0]);
    renew_flag(&object->flags[1]);
    mark_synchronizing(address);
}

static struct object *new_object(struct row *row, uintptr_t address)
{
    struct object *object = room_for(sizeof *object);

    if (!object)
        return NULL;
    renew(object, address);
    object->next = row->first;
    row->first = object;
    return object;
}

/* An object whose memory was freed, or an ended stack's, is another one now. */
static struct object *object_in(struct row *row, uintptr_t address)
{
    for (struct object *object = row->first; object; object = object->next)
        if (object->address == address) {
            if (object->is_gone || !is_synchronizing(address))
                renew(object, address);
            return object;
        }
    return new_object(row, address);
}

struct object *take_object(uintptr_t address)
{
    struct row *row = row_of(address);

    take_row(row);
    struct object *object = object_in(row, address);
    if (!object)
        leave_row(row);
    return object;
}

void leave_object(uintptr_t address)
{
    leave_row(row_of(address));
}

struct object *object_at(uintptr_t address)
{
    struct object *object = take_object(address);

    if (object)
        leave_object(address);
    return object;
}

void object_gone(uintptr_t address)
{
    struct row *row = row_of(address);

    take_row(row);
    for (struct object *object = row->first; object; object = object->next)
        if (object->address == address)
            object->is_gone = true;
    leave_row(row);
}

/* One more number; the last one for all, if there are no more. */
static uint32_t one_more(_Atomic uint32_t *next, uint32_t most, const char *none_left)
{
    uint32_t number = atomic_fetch_add(next, 1);

    if (number < most - 1)
        return number;
    atomic_store(next, most - 1);
    trace_says(none_left);
    return most - 1;
}

/* Inside. */
uint32_t lock_of(struct object *object)
{
    if (object->lock == NONE)
        object->lock = one_more(&next_lock, MOST_LOCKS, "more locks than a trace may have: the last number stands for several");
    return object->lock;
}

static uint32_t flag_number(void)
{
    return one_more(&next_flag, MOST_FLAGS, "more flags than a trace may have: the last one orders more than the program did");
}

bool has_heard(const struct flag *flag, const struct thread *thread)
{
    return flag->heard.members[thread->processor / 64] >> thread->processor % 64 & 1;
}

static void hears(struct flag *flag, const struct thread *thread)
{
    flag->heard.members[thread->processor / 64] |= (uint64_t)1 << thread->processor % 64;
}

void set_flag(struct thread *thread, struct flag *flag, const char *what, uintptr_t place)
{
    if (flag->number == NONE) {
        flag->number = flag_number();
        trace_names(flag->number, what, place);
    }
    /* Who sets it has heard of all that did so if it had before. */
    bool knows = !flag->is_set || has_heard(flag, thread);
    clear(&flag->heard, sizeof flag->heard);
    if (knows)
        hears(flag, thread);
    flag->is_set = true;
    trace_line(thread, "set", flag->number, place);
}

void await_flag(struct thread *thread, struct flag *flag, uintptr_t place)
{
    if (!flag->is_set || has_heard(flag, thread))
        return;
    hears(flag, thread);
    trace_line(thread, "await", flag->number, place);
}

void await_never(struct thread *thread, struct flag *flag, uintptr_t place)
{
    if (!flag)
        return;
    flag->number = flag_number();
    trace_names(flag->number, "what this thread waits for in vain", place);
    trace_line(thread, "watch", flag->number, place);
}

void hand_on(struct flag *flag, const char *what, uintptr_t place)
{
    struct thread *thread = recorded();

    if (!thread)
        return;
    trace_enter(thread);
    set_flag(thread, flag, what, place);
    trace_leave(thread);
}

void take_over(struct flag *flag, uintptr_t place)
{
    struct thread *thread = recorded();

    if (!thread)
        return;
    trace_enter(thread);
    await_flag(thread, flag, place);
    trace_leave(thread);
}
