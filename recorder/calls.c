/* Calls into the C library that access memory, free it, or end the program. */
#define _GNU_SOURCE
#include "recorder.h"

#include <dlfcn.h>
#include <malloc.h>
#include <poll.h>
#include <sched.h>
#include <stdio.h>
#include <stdlib.h>
#include <string.h>
#include <sys/epoll.h>
#include <sys/mman.h>
#include <sys/select.h>
#include <sys/socket.h>
#include <sys/stat.h>
#include <sys/syscall.h>
#include <sys/types.h>
#include <time.h>
#include <unistd.h>

/* Not by the C library's function, which is the recorder's here. */
static bool begins_with(const char *text, const char *head)
{
    while (*head)
        if (*text++ != *head++)
            return false;
    return true;
}

void *next_definition(const char *name)
{
    /* Of a condition variable's functions the C library has an older form, which is not meant. */
    void *found = begins_with(name, "pthread_cond_") ? dlvsym(RTLD_NEXT, name, "GLIBC_2.3.2") : NULL;

    return found ? found : dlsym(RTLD_NEXT, name);
}

void clear(void *room, size_t size)
{
    volatile char *bytes = room;

    for (size_t at = 0; at < size; at++)
        bytes[at] = 0;
}

void give_back(void *room, size_t size)
{
    syscall(SYS_munmap, room, size);
}

static inline void loads(const void *from, size_t size, uintptr_t place)
{
    struct thread *thread = known();

    if (thread && !thread->ignored)
        access_bytes(thread, (uintptr_t)from, size, false, place);
}

static inline void stores(void *to, size_t size, uintptr_t place)
{
    struct thread *thread = known();

    if (thread && !thread->ignored)
        access_bytes(thread, (uintptr_t)to, size, true, place);
}

#define COPY(name) \
    PUBLIC void *name(void *to, const void *from, size_t size) \
    { \
        loads(from, size, HERE); \
        stores(to, size, HERE); \
        return NEXT(memmove)(to, from, size); \
    }

#define FILL(name) \
    PUBLIC void *name(void *to, int value, size_t size) \
    { \
        stores(to, size, HERE); \
        return NEXT(memset)(to, value, size); \
    }

COPY(memcpy)
COPY(memmove)
FILL(memset)
/* (later compilers call these) */
COPY(__tsan_memcpy)
COPY(__tsan_memmove)
FILL(__tsan_memset)

PUBLIC int memcmp(const void *one, const void *other, size_t size)
{
    loads(one, size, HERE);
    loads(other, size, HERE);
    return NEXT(memcmp)(one, other, size);
}

PUBLIC size_t strlen(const char *text)
{
    size_t length = NEXT(strlen)(text);

    loads(text, length + 1, HERE);
    return length;
}

PUBLIC char *strcpy(char *to, const char *from)
{
    size_t size = NEXT(strlen)(from) + 1;

    loads(from, size, HERE);
    stores(to, size, HERE);
    return NEXT(strcpy)(to, from);
}

PUBLIC char *strncpy(char *to, const char *from, size_t most)
{
    size_t length = strnlen(from, most);

    loads(from, length < most ? length + 1 : most, HERE);
    stores(to, most, HERE);
    return NEXT(strncpy)(to, from, most);
}

PUBLIC char *strcat(char *to, const char *from)
{
    size_t length = NEXT(strlen)(to), size = NEXT(strlen)(from) + 1;

    loads(to, length + 1, HERE);
    loads(from, size, HERE);
    stores(to + length, size, HERE);
    return NEXT(strcat)(to, from);
}

PUBLIC char *strdup(const char *text)
{
    loads(text, NEXT(strlen)(text) + 1, HERE);
    return NEXT(strdup)(text);
}

/* How much of two texts is looked at: up to where they differ, or end. */
static size_t compared(const char *one, const char *other, size_t most)
{
    size_t at = 0;

    while (at < most && one[at] == other[at] && one[at])
        at++;
    return at < most ? at + 1 : most;
}

PUBLIC int strcmp(const char *one, const char *other)
{
    size_t size = compared(one, other, SIZE_MAX);

    loads(one, size, HERE);
    loads(other, size, HERE);
    return NEXT(strcmp)(one, other);
}

PUBLIC int strncmp(const char *one, const char *other, size_t most)
{
    size_t size = compared(one, other, most);

    loads(one, size, HERE);
    loads(other, size, HERE);
    return NEXT(strncmp)(one, other, most);
}

/* With a seed: reading may wait for somebody outside, unless it is a file that is read. */
static bool may_wait(int file)
{
    struct stat about;

    return is_scheduled && known() && (fstat(file, &about) || !S_ISREG(about.st_mode));
}

/* A call that may wait for somebody outside. */
#define OUTSIDE(type, is_meant, call) \
    __extension__({ \
        struct thread *away = is_scheduled && (is_meant) ? known() : NULL; \
        if (away) \
            goes_away(away); \
        type result = call; \
        if (away) \
            comes_back(away); \
        result; \
    })

static inline ssize_t came(ssize_t count, void *to, uintptr_t place)
{
    if (count > 0)
        stores(to, (size_t)count, place);
    return count;
}

PUBLIC ssize_t read(int file, void *to, size_t size)
{
    return came(OUTSIDE(ssize_t, may_wait(file), NEXT(read)(file, to, size)), to, HERE);
}

PUBLIC ssize_t pread(int file, void *to, size_t size, off_t offset)
{
    return came(NEXT(pread)(file, to, size, offset), to, HERE);
}

PUBLIC ssize_t recv(int file, void *to, size_t size, int how)
{
    return came(OUTSIDE(ssize_t, true, NEXT(recv)(file, to, size, how)), to, HERE);
}

PUBLIC size_t fread(void *to, size_t size, size_t count, FILE *file)
{
    size_t came = NEXT(fread)(to, size, count, file);

    stores(to, came * size, HERE);
    return came;
}

PUBLIC ssize_t write(int file, const void *from, size_t size)
{
    loads(from, size, HERE);
    return NEXT(write)(file, from, size);
}

PUBLIC ssize_t pwrite(int file, const void *from, size_t size, off_t offset)
{
    loads(from, size, HERE);
    return NEXT(pwrite)(file, from, size, offset);
}

PUBLIC ssize_t send(int file, const void *from, size_t size, int how)
{
    loads(from, size, HERE);
    return NEXT(send)(file, from, size, how);
}

PUBLIC size_t fwrite(const void *from, size_t size, size_t count, FILE *file)
{
    loads(from, size * count, HERE);
    return NEXT(fwrite)(from, size, count, file);
}

PUBLIC int accept(int file, struct sockaddr *address, socklen_t *size)
{
    return OUTSIDE(int, true, NEXT(accept)(file, address, size));
}

PUBLIC int accept4(int file, struct sockaddr *address, socklen_t *size, int how)
{
    return OUTSIDE(int, true, NEXT(accept4)(file, address, size, how));
}

PUBLIC int poll(struct pollfd *files, nfds_t count, int time)
{
    return OUTSIDE(int, time != 0, NEXT(poll)(files, count, time));
}

PUBLIC int epoll_wait(int file, struct epoll_event *events, int most, int time)
{
    return OUTSIDE(int, time != 0, NEXT(epoll_wait)(file, events, most, time));
}

PUBLIC int select(int count, fd_set *in, fd_set *out, fd_set *except, struct timeval *time)
{
    return OUTSIDE(int, true, NEXT(select)(count, in, out, except, time));
}

PUBLIC int pause(void)
{
    return OUTSIDE(int, true, NEXT(pause)());
}

/* With a seed time does not pass: who sleeps lets another one go on. */
static bool slept(void)
{
    struct thread *thread = is_scheduled ? known() : NULL;

    if (thread)
        turn_passes(thread, true);
    return thread != NULL;
}

PUBLIC int usleep(useconds_t time)
{
    return slept() ? 0 : NEXT(usleep)(time);
}

PUBLIC unsigned sleep(unsigned time)
{
    return slept() ? 0 : NEXT(sleep)(time);
}

PUBLIC int nanosleep(const struct timespec *time, struct timespec *left)
{
    return slept() ? 0 : NEXT(nanosleep)(time, left);
}

PUBLIC int clock_nanosleep(clockid_t clock, int how, const struct timespec *time, struct timespec *left)
{
    return slept() ? 0 : NEXT(clock_nanosleep)(clock, how, time, left);
}

PUBLIC int sched_yield(void)
{
    return slept() ? 0 : NEXT(sched_yield)();
}

static void frees(void *block, uintptr_t place)
{
    struct thread *thread = block ? known() : NULL;

    if (thread)
        bytes_are_freed(thread, (uintptr_t)block, malloc_usable_size(block), place);
}

/* While the C library's own function is looked for, what is freed is lost. */
PUBLIC void free(void *block)
{
    /* (volatile, since the compiler is told that dlsym never comes back here) */
    static __thread volatile bool is_looking __attribute__((tls_model("initial-exec")));
    static void (*next)(void *);

    if (is_looking)
        return;
    if (!next) {
        is_looking = true;
        next = (void (*)(void *))dlsym(RTLD_NEXT, "free");
        is_looking = false;
    }
    frees(block, HERE);
    next(block);
}

PUBLIC void *realloc(void *block, size_t size)
{
    frees(block, HERE);
    return NEXT(realloc)(block, size);
}

PUBLIC int munmap(void *room, size_t size)
{
    struct thread *thread = known();

    if (thread)
        bytes_are_freed(thread, (uintptr_t)room, size, HERE);
    return NEXT(munmap)(room, size);
}

PUBLIC _Noreturn void _exit(int status)
{
    trace_end();
    NEXT(_exit)(status);
    __builtin_unreachable();
}
