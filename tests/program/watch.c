/* Loaded before the C library (LD_PRELOAD): tells at the end of a process how many threads it started, how many bytes it
   asked for, how much of the processor's time its threads took, and by how many writes its standard output came.

   WATCH_REPORT     the file that is written when the process ends by itself, as one line: THREADS BYTES TIME MOST WRITES
   WATCH_TAKES      how many bytes standard output takes of each write, at most; any number where it isn't set

   A thread is a call of pthread_create. Bytes are those of each call of malloc, calloc, realloc, aligned_alloc,
   memalign or posix_memalign, of any thread, whether they were given back or not. TIME is what all those threads took
   that ended, and MOST what the busiest of them took, in nanoseconds. */
#define _GNU_SOURCE
#include <dlfcn.h>
#include <errno.h>
#include <fcntl.h>
#include <pthread.h>
#include <stdatomic.h>
#include <stdio.h>
#include <stdlib.h>
#include <sys/syscall.h>
#include <time.h>
#include <unistd.h>

extern void *__libc_malloc(size_t size);
extern void *__libc_calloc(size_t count, size_t size);
extern void *__libc_realloc(void *block, size_t size);
extern void *__libc_memalign(size_t alignment, size_t size);
extern void __libc_free(void *block);

static atomic_ulong threads, bytes, time_of_all, time_of_busiest, writes;
static atomic_int ended;

/* Writes the report; where the process is already on its way out, not again. */
__attribute__((destructor)) static void end(void) {
    const char *report = getenv("WATCH_REPORT");
    char line[128];
    int count, at;
    if (!report || atomic_exchange(&ended, 1))
        return;
    at = open(report, O_WRONLY | O_CREAT | O_TRUNC, 0600);
    count = snprintf(line, sizeof line, "%lu %lu %lu %lu %lu\n", atomic_load(&threads), atomic_load(&bytes),
                     atomic_load(&time_of_all), atomic_load(&time_of_busiest), atomic_load(&writes));
    if (at < 0 || write(at, line, count) != count)
        abort();
    close(at);
}

/* A program may end by this call, which no destructor sees. */
void _exit(int status) {
    end();
    syscall(SYS_exit_group, status);
    abort();
}

/* What a thread does. */
struct errand {
    void *(*work)(void *);
    void *given;
};

/* Does what a thread does, and adds what it took. */
static void *timed(void *place) {
    struct errand errand = *(struct errand *)place;
    struct timespec took;
    unsigned long nanoseconds, most;
    void *answer;
    __libc_free(place);
    answer = errand.work(errand.given);
    if (clock_gettime(CLOCK_THREAD_CPUTIME_ID, &took))
        abort();
    nanoseconds = took.tv_sec * 1000000000ul + took.tv_nsec;
    atomic_fetch_add(&time_of_all, nanoseconds);
    most = atomic_load(&time_of_busiest);
    while (most < nanoseconds && !atomic_compare_exchange_weak(&time_of_busiest, &most, nanoseconds)) {
    }
    return answer;
}

int pthread_create(pthread_t *thread, const pthread_attr_t *how, void *(*work)(void *), void *given) {
    int (*create)(pthread_t *, const pthread_attr_t *, void *(*)(void *), void *) = dlsym(RTLD_NEXT, "pthread_create");
    struct errand *errand = __libc_malloc(sizeof *errand);
    int fault;
    if (!errand)
        return EAGAIN;
    *errand = (struct errand){work, given};
    atomic_fetch_add(&threads, 1);
    fault = create(thread, how, timed, errand);
    if (fault)
        __libc_free(errand);
    return fault;
}

ssize_t write(int file, const void *text, size_t size) {
    const char *most = getenv("WATCH_TAKES");
    if (file == STDOUT_FILENO) {
        atomic_fetch_add(&writes, 1);
        if (most && size > strtoul(most, NULL, 10))
            size = strtoul(most, NULL, 10);
    }
    return syscall(SYS_write, file, text, size);
}

void *malloc(size_t size) {
    atomic_fetch_add(&bytes, size);
    return __libc_malloc(size);
}

void *calloc(size_t count, size_t size) {
    atomic_fetch_add(&bytes, count * size);
    return __libc_calloc(count, size);
}

void *realloc(void *block, size_t size) {
    atomic_fetch_add(&bytes, size);
    return __libc_realloc(block, size);
}

void *memalign(size_t alignment, size_t size) {
    atomic_fetch_add(&bytes, size);
    return __libc_memalign(alignment, size);
}

void *aligned_alloc(size_t alignment, size_t size) {
    return memalign(alignment, size);
}

int posix_memalign(void **block, size_t alignment, size_t size) {
    *block = memalign(alignment, size);
    return *block ? 0 : ENOMEM;
}
