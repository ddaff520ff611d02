/* The trace: its lines, who may write, how it ends. */
#define _GNU_SOURCE
#include "recorder.h"

#include <dlfcn.h>
#include <errno.h>
#include <fcntl.h>
#include <limits.h>
#include <linux/futex.h>
#include <pthread.h>
#include <signal.h>
#include <stdlib.h>
#include <string.h>
#include <sys/syscall.h>
#include <time.h>
#include <unistd.h>

/* Text that is not written yet. Up to `whole` it ends with whole lines. */
enum { ROOM = 1 << 20, LONGEST_LINE = 512 };
static char text[ROOM];
static size_t length, whole;

static int file = -1;
static unsigned long events;
_Atomic bool recording;

/* 0 free, 1 taken, 2 taken and somebody waits. Not a mutex of the C library: those are recorded. */
static _Atomic int gate;

static void pass_gate(void)
{
    int was = 0;

    if (atomic_compare_exchange_strong(&gate, &was, 1))
        return;
    while (atomic_exchange(&gate, 2) != 0)
        syscall(SYS_futex, &gate, FUTEX_WAIT_PRIVATE, 2, NULL, NULL, 0);
}

/* Tries for a while: a signal may have come to the thread that has the gate. */
static bool pass_gate_if_possible(void)
{
    const struct timespec pause = {0, 1000000};

    for (int tries = 0; tries < 500; tries++) {
        int was = 0;
        if (atomic_compare_exchange_strong(&gate, &was, 2))
            return true;
        syscall(SYS_nanosleep, &pause, NULL);
    }
    return false;
}

static void leave_gate(void)
{
    if (atomic_exchange(&gate, 0) == 2)
        syscall(SYS_futex, &gate, FUTEX_WAKE_PRIVATE, 1, NULL, NULL, 0);
}

void trace_leave(struct thread *thread)
{
    leave_gate();
    thread->is_inside = false;
}

/* Not by the C library's functions, which are the recorder's here. */
static void say(const char *what)
{
    static const char head[] = "recorder: ";
    size_t size = 0;

    while (what[size])
        size++;
    syscall(SYS_write, 2, head, sizeof head - 1);
    syscall(SYS_write, 2, what, size);
    syscall(SYS_write, 2, "\n", 1);
}

/* Writes what is there in whole lines. If nobody reads any more, nothing is recorded any more. */
static void write_lines(void)
{
    size_t at = 0;

    while (at < whole) {
        ssize_t wrote = syscall(SYS_write, file, text + at, whole - at);
        if (wrote < 0 && errno == EINTR)
            continue;
        if (wrote < 0) {
            atomic_store(&recording, false);
            say("the trace can't be written any more");
            break;
        }
        at += (size_t)wrote;
    }
    length = whole = 0;
}

/* What these put stands from `to` on, and they answer where it ends: so a line is put without a look at what is kept elsewhere. */
static inline char *put_text(char *to, const char *signs)
{
    while (*signs)
        *to++ = *signs++;
    return to;
}

static inline char *put_number(char *to, unsigned long number)
{
    char digits[20];
    int count = 0;

    do
        digits[count++] = (char)('0' + number % 10);
    while (number /= 10);
    while (count)
        *to++ = digits[--count];
    return to;
}

static inline char *put_hexadecimal(char *to, uintptr_t number)
{
    int shift = 0;

    while (number >> shift > 15)
        shift += 4;
    for (; shift >= 0; shift -= 4)
        *to++ = "0123456789abcdef"[number >> shift & 15];
    return to;
}

/* Where the next line begins. */
static inline char *begin_line(void)
{
    return text + length;
}

static inline void end_line(char *to)
{
    *to++ = '\n';
    whole = length = (size_t)(to - text);
    if (length > ROOM - LONGEST_LINE)
        write_lines();
}

/* A part of the program, by where it stands in memory: its places are told by their distance from its begin. */
struct module {
    uintptr_t first, end;
    char name[64];
};

enum { MOST_MODULES = 64 };
static struct module modules[MOST_MODULES];
static int module_count;

/* The next part, whose name has no folder and no blank. The program itself has none. */
static struct module *new_module(uintptr_t place)
{
    Dl_info found;
    struct module *module = &modules[module_count];

    if (module_count == MOST_MODULES || !dladdr((void *)place, &found) || !found.dli_fbase)
        return NULL;
    module->first = (uintptr_t)found.dli_fbase;
    module->end = place + 1;
    if (module_count) {
        const char *name = strrchr(found.dli_fname, '/');
        strncpy(module->name, name ? name + 1 : found.dli_fname, sizeof module->name - 1);
    }
    return &modules[module_count++];
}

static struct module *module_of(uintptr_t place)
{
    for (int at = 0; at < module_count; at++)
        if (modules[at].first <= place && place < modules[at].end)
            return &modules[at];
    /* A part that is known may be longer than was seen. */
    Dl_info found;
    if (dladdr((void *)place, &found))
        for (int at = 0; at < module_count; at++)
            if (modules[at].first == (uintptr_t)found.dli_fbase) {
                modules[at].end = place + 1;
                return &modules[at];
            }
    return new_module(place);
}

/* A place in the program is the line's label. The call before it is meant, so it is the byte before. */
static inline char *put_place(char *to, uintptr_t place)
{
    struct module *module = place ? module_of(place - 1) : NULL;

    if (!module)
        return to;
    to = put_text(put_text(to, "  "), module->name);
    return put_hexadecimal(put_text(to, "+0x"), place - 1 - module->first);
}

static inline char *begin_event(const struct thread *thread)
{
    char *to = put_number(put_text(begin_line(), "event "), events++);

    *to++ = ' ';
    to = put_number(to, thread->processor);
    *to++ = ' ';
    return to;
}

/* Like accesses say something new again. */
static void begin_interval(struct thread *thread)
{
    if (thread->interval == MOST_INTERVALS) {
        clear(thread->remembered, sizeof thread->remembered);
        thread->interval = 0;
    }
    thread->interval++;
}

void trace_line(struct thread *thread, const char *event, uint32_t number, uintptr_t place)
{
    if (!is_recording())
        return;
    char *to = put_text(begin_event(thread), event);
    if (number != NONE)
        to = put_number(put_text(to, " "), number);
    end_line(put_place(to, place));
    /* What a thread did before it took something over races with all that what it does after that would race with. */
    if (event[0] == 's' || event[0] == 'r' || event[1] == 'c')
        begin_interval(thread);
}

/* Values aren't recorded: a load of 0 and a store of 0 stand for all. */
static inline void access_line(struct thread *thread, struct access access)
{
    char *to = put_text(begin_event(thread), access.place & 1 ? "store " : "load ");

    to = put_text(put_number(to, access.word), " 0");
    end_line(put_place(to, access.place >> 1));
}

void trace_accesses(struct thread *thread)
{
    uint32_t count = atomic_load_explicit(&thread->kept, memory_order_acquire);

    for (uint32_t at = 0; at < count && is_recording(); at++)
        access_line(thread, thread->accesses[at]);
    atomic_store_explicit(&thread->kept, 0, memory_order_release);
}

static void print_said(void);

void trace_enter(struct thread *thread)
{
    thread->is_inside = true;
    pass_gate();
    if (is_recording())
        print_said();
    trace_accesses(thread);
}

void trace_event(const char *event, uint32_t number, uintptr_t place)
{
    struct thread *thread = recorded();

    if (!thread)
        return;
    trace_enter(thread);
    trace_line(thread, event, number, place);
    trace_leave(thread);
}

/* What was said, each text once; the first `printed` of them stand in the trace, too. */
static const char *_Atomic said[16];
static int printed;

void trace_says(const char *what)
{
    for (int at = 0; at < 16; at++) {
        const char *was = NULL;
        if (atomic_compare_exchange_strong(&said[at], &was, what)) {
            say(what);
            return;
        }
        if (was == what)
            return;
    }
}

void trace_names(uint32_t flag, const char *what, uintptr_t place)
{
    if (!is_recording())
        return;
    char *to = put_number(put_text(begin_line(), "# flag "), flag);
    end_line(put_place(put_text(put_text(to, " is "), what), place));
}

static void print_said(void)
{
    while (printed < 16 && atomic_load_explicit(&said[printed], memory_order_relaxed)) {
        end_line(put_text(put_text(begin_line(), "# "), said[printed++]));
    }
}

/* CEVANDLE_TRACE is a file's name, or &N for a descriptor that is open. */
static int open_trace(void)
{
    const char *name = getenv("CEVANDLE_TRACE");

    if (!name || !*name)
        name = "cevandle.trace";
    if (*name == '&')
        return atoi(name + 1);
    return open(name, O_WRONLY | O_CREAT | O_TRUNC | O_CLOEXEC, 0666);
}

static void put_head(void)
{
    static const uint32_t sizes[] = {MOST_PROCESSORS, 1, MOST_WORDS, MOST_LOCKS, MOST_FLAGS};
    char *to = put_text(begin_line(), "cluster");

    for (size_t at = 0; at < sizeof sizes / sizeof *sizes; at++)
        to = put_number(put_text(to, " "), sizes[at]);
    end_line(to);
    end_line(put_text(begin_line(), "# recorded: words are numbered as they were first touched, and values are left out"));
}

/* Writes what all threads have kept. */
void trace_end(void)
{
    if (!is_recording() || !pass_gate_if_possible())
        return;
    for (uint32_t at = 0; at < MOST_PROCESSORS; at++)
        if (thread_of(at))
            trace_accesses(thread_of(at));
    print_said();
    write_lines();
    atomic_store(&recording, false);
    leave_gate();
}

/* The trace ends with whole lines, and then the signal does what it did. */
static void end_by_signal(int signal)
{
    trace_end();
    if (is_recording()) {
        write_lines();
        atomic_store(&recording, false);
    }
    struct sigaction before = {.sa_handler = SIG_DFL};
    sigaction(signal, &before, NULL);
    raise(signal);
}

/* Signals that end a program, where it doesn't handle them itself. */
static void end_at_signals(void)
{
    static const int ending[] = {SIGABRT, SIGALRM, SIGBUS, SIGFPE, SIGHUP, SIGILL, SIGINT, SIGPIPE, SIGQUIT, SIGSEGV, SIGSYS, SIGTERM,
        SIGTRAP, SIGUSR1, SIGUSR2, SIGVTALRM, SIGXCPU};

    for (size_t at = 0; at < sizeof ending / sizeof *ending; at++) {
        struct sigaction was, now = {.sa_handler = end_by_signal, .sa_flags = SA_NODEFER};
        if (!sigaction(ending[at], NULL, &was) && was.sa_handler == SIG_DFL)
            sigaction(ending[at], &now, NULL);
    }
}

/* A child that is forked goes on without a trace: it has one thread, and its parent goes on with this one. */
static void end_in_child(void)
{
    if (is_recording()) {
        atomic_store(&recording, false);
        say("a forked child is not recorded");
    }
}

static void begin_once(void)
{
    if (!words_begin()) {
        say("memory ran out: nothing is recorded");
        return;
    }
    schedule_begin();
    file = open_trace();
    if (file < 0) {
        say("the trace can't be opened: CEVANDLE_TRACE names a file, or &N for descriptor N");
        return;
    }
    /* (the recorder is a part of the program itself) */
    new_module((uintptr_t)&trace_begin);
    put_head();
    end_at_signals();
    pthread_atfork(NULL, NULL, end_in_child);
    atomic_store(&recording, true);
    begin_main_thread();
}

void trace_begin(void)
{
    static _Atomic int stage;
    int was = 0;

    if (atomic_load(&stage))
        return;
    if (atomic_compare_exchange_strong(&stage, &was, 1))
        begin_once();
}

static __attribute__((constructor(101))) void begin(void)
{
    trace_begin();
}

static __attribute__((destructor(101))) void end(void)
{
    trace_end();
}
