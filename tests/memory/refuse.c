/* Loaded before the C library (LD_PRELOAD): refuses one of a process's requests for memory, and tells at its end what
   it still holds.

   GROWTH_REFUSED   the number of the request that is refused, from 1; none where it isn't set
   GROWTH_REPORT    the file that is written when the process ends by itself, as one line:
                    REQUESTS LIBRARY HELD: requests made; 1 where the refused one was the C library's own, else 0;
                    blocks that the program asked for and nobody gave back

   A request is a call of malloc, calloc, realloc, aligned_alloc, memalign or posix_memalign, of any thread; a realloc
   to a smaller size counts too, since it may be refused as well. Blocks that the C library asked for itself, as for
   the threads that it keeps for later, are no leak of the program: a block's asker is told by the address to which
   the request returns. The program's blocks are kept in a table that never shrinks, so that a block given back by
   another thread or in another module is found. */
#define _GNU_SOURCE
#include <errno.h>
#include <fcntl.h>
#include <link.h>
#include <stdatomic.h>
#include <stddef.h>
#include <stdint.h>
#include <stdio.h>
#include <stdlib.h>
#include <sys/syscall.h>
#include <unistd.h>

extern void *__libc_malloc(size_t size);
extern void *__libc_calloc(size_t count, size_t size);
extern void *__libc_realloc(void *block, size_t size);
extern void *__libc_memalign(size_t alignment, size_t size);
extern void __libc_free(void *block);

#define PLACES ((size_t)1 << 22)

/* Each block that the program was ever given, and whether it has it. */
static struct place {
    void *block;
    int is_held;
} places[PLACES];
static size_t used, held_now;
static atomic_flag busy = ATOMIC_FLAG_INIT;
static atomic_ulong requests;
static atomic_int refused_library, started, ended;
static unsigned long refused;
static const char *report;
static uintptr_t first_address, last_address;

static void lock(void) {
    while (atomic_flag_test_and_set(&busy)) {
    }
}

static void unlock(void) {
    atomic_flag_clear(&busy);
}

/* Tells the addresses of the program's own code, which is the first object. */
static int note_program(struct dl_phdr_info *info, size_t size, void *nothing) {
    (void)size, (void)nothing;
    first_address = UINTPTR_MAX;
    for (int i = 0; i < info->dlpi_phnum; i++) {
        const ElfW(Phdr) *part = &info->dlpi_phdr[i];
        uintptr_t from = info->dlpi_addr + part->p_vaddr;
        if (part->p_type != PT_LOAD)
            continue;
        if (from < first_address)
            first_address = from;
        if (from + part->p_memsz > last_address)
            last_address = from + part->p_memsz;
    }
    return 1;
}

__attribute__((constructor)) static void start(void) {
    const char *number = getenv("GROWTH_REFUSED");
    refused = number ? strtoul(number, NULL, 10) : 0;
    report = getenv("GROWTH_REPORT");
    dl_iterate_phdr(note_program, NULL);
    atomic_store(&started, 1);
}

/* Writes the report; where the process is already on its way out, not again. */
__attribute__((destructor)) static void end(void) {
    char line[128];
    int count, at;
    if (!report || atomic_exchange(&ended, 1))
        return;
    at = open(report, O_WRONLY | O_CREAT | O_TRUNC, 0600);
    lock();
    count = snprintf(line, sizeof line, "%lu %d %zu\n", atomic_load(&requests), atomic_load(&refused_library), held_now);
    unlock();
    if (at < 0 || write(at, line, count) != count)
        abort();
    close(at);
}

/* A program may end by this call, which no destructor sees. */
void _exit(int status) {
    end();
    syscall(SYS_exit_group, status);
    abort();
}

static int is_program(void *asker) {
    return (uintptr_t)asker >= first_address && (uintptr_t)asker < last_address;
}

/* Counts a request, and answers whether it is refused. */
static int refuses(void *asker) {
    if (!atomic_load(&started) || atomic_fetch_add(&requests, 1) + 1 != refused)
        return 0;
    if (!is_program(asker))
        atomic_store(&refused_library, 1);
    errno = ENOMEM;
    return 1;
}

/* The block's place in the table, or a free one. The caller has the lock. */
static struct place *place_of(void *block) {
    size_t at = ((uintptr_t)block >> 4) * 0x9e3779b97f4a7c15u >> 42;
    while (places[at].block && places[at].block != block)
        at = (at + 1) % PLACES;
    return &places[at];
}

static void note(void *block, void *asker) {
    struct place *place;
    if (!block || !is_program(asker))
        return;
    lock();
    place = place_of(block);
    if (!place->block && ++used == PLACES)
        abort();
    place->block = block;
    place->is_held = 1;
    held_now++;
    unlock();
}

/* Takes note that the block is given back, and answers whether the program had it. */
static int forget(void *block) {
    struct place *place;
    int was_held;
    lock();
    place = place_of(block);
    was_held = place->is_held;
    held_now -= was_held;
    place->is_held = 0;
    unlock();
    return was_held;
}

void *malloc(size_t size) {
    void *asker = __builtin_return_address(0);
    void *block = refuses(asker) ? NULL : __libc_malloc(size);
    note(block, asker);
    return block;
}

void *calloc(size_t count, size_t size) {
    void *asker = __builtin_return_address(0);
    void *block = refuses(asker) ? NULL : __libc_calloc(count, size);
    note(block, asker);
    return block;
}

/* A block at a multiple of `alignment`, for who asked for it. */
static void *aligned(void *asker, size_t alignment, size_t size) {
    void *block = refuses(asker) ? NULL : __libc_memalign(alignment, size);
    note(block, asker);
    return block;
}

void *memalign(size_t alignment, size_t size) {
    return aligned(__builtin_return_address(0), alignment, size);
}

void *aligned_alloc(size_t alignment, size_t size) {
    return aligned(__builtin_return_address(0), alignment, size);
}

int posix_memalign(void **block, size_t alignment, size_t size) {
    *block = aligned(__builtin_return_address(0), alignment, size);
    return *block ? 0 : ENOMEM;
}

void *realloc(void *block, size_t size) {
    void *asker = __builtin_return_address(0);
    void *grown;
    int noted;
    if (refuses(asker))
        return NULL;
    noted = block && forget(block);
    grown = __libc_realloc(block, size);
    if (grown)
        note(grown, asker);
    else if (noted && size)
        note(block, asker);
    return grown;
}

void free(void *block) {
    if (block)
        forget(block);
    __libc_free(block);
}
