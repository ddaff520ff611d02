/* Numbers of words; memory that is used again. */
#include "words.h"

#include <string.h>
#include <sys/mman.h>

/* A word that was accessed in parts: its number as a whole, and that of its first byte; the others' follow. */
struct parts {
    uint32_t as_whole, first;
};

cell *_Atomic *blocks;
static struct parts *parted;
static _Atomic uint32_t next_word, next_parted;

static void *reserve(size_t size)
{
    void *room = mmap(NULL, size, PROT_READ | PROT_WRITE, MAP_PRIVATE | MAP_ANONYMOUS | MAP_NORESERVE, -1, 0);

    return room == MAP_FAILED ? NULL : room;
}

bool words_begin(void)
{
    blocks = reserve(sizeof *blocks * BLOCKS);
    parted = reserve(sizeof *parted * MOST_WORDS);
    return blocks && parted;
}

cell *new_block(cell *_Atomic *place)
{
    cell *made = reserve(CELLS * sizeof *made), *was = NULL;

    if (!made)
        return NULL;
    if (atomic_compare_exchange_strong(place, &was, made))
        return made;
    give_back(made, CELLS * sizeof *made);
    return was;
}

static inline cell *block_at(uintptr_t address)
{
    return address >> ADDRESS_BITS || !blocks ? NULL : atomic_load_explicit(&blocks[address >> BLOCK_BITS], memory_order_acquire);
}

/* So many numbers, counted from 1; 0 if there are none. */
static uint32_t new_numbers(uint32_t count)
{
    uint32_t first = atomic_fetch_add(&next_word, count);

    if (first <= MOST_WORDS - count)
        return first + 1;
    atomic_fetch_sub(&next_word, count);
    trace_says("more words are touched than a trace may have: accesses are left out");
    return 0;
}

uint32_t number_of(cell *cell)
{
    uint32_t has = atomic_load_explicit(cell, memory_order_relaxed);

    while (!(has & ~IS_SYNCHRONIZING)) {
        uint32_t number = new_numbers(1);
        if (!number)
            return 0;
        if (atomic_compare_exchange_strong(cell, &has, has | number))
            return number;
    }
    return has & ~IS_SYNCHRONIZING;
}

/* Where the word's parts stand, after it was parted if it was not; NULL if there is no room. */
static struct parts *parts_of(cell *cell)
{
    uint32_t has = number_of(cell) ? atomic_load(cell) : 0;

    while (has && !(has & IS_PARTED)) {
        uint32_t first = new_numbers(WORD), at = atomic_fetch_add(&next_parted, 1);
        if (!first || at >= MOST_WORDS)
            return NULL;
        parted[at] = (struct parts){has & NUMBER, first};
        if (atomic_compare_exchange_strong(cell, &has, (has & IS_SYNCHRONIZING) | IS_PARTED | at))
            return &parted[at];
    }
    return has ? &parted[has & NUMBER] : NULL;
}

void write_kept(struct thread *thread)
{
    trace_enter(thread);
    trace_leave(thread);
}

void access_parted(struct thread *thread, uint32_t has, bool is_store, uintptr_t place)
{
    struct parts *parts = &parted[has & NUMBER];

    keep(thread, parts->as_whole, is_store, place);
    for (uint32_t at = 0; !is_store && at < WORD; at++)
        keep(thread, parts->first + at, false, place);
}

static void access_parts(struct thread *thread, uintptr_t address, size_t size, bool is_store, uintptr_t place)
{
    cell *cell = cell_at(address);
    struct parts *parts = cell ? parts_of(cell) : NULL;

    if (!parts)
        return;
    keep(thread, parts->as_whole, false, place);
    for (size_t at = 0; at < size; at++)
        keep(thread, parts->first + (uint32_t)(address % WORD + at), is_store, place);
}

void access_bytes(struct thread *thread, uintptr_t address, size_t size, bool is_store, uintptr_t place)
{
    while (size) {
        size_t here = WORD - address % WORD;
        if (here > size)
            here = size;
        if (here == WORD) {
            cell *cell = cell_at(address);
            if (cell)
                access_word(thread, cell, is_store, place);
        } else {
            access_parts(thread, address, here, is_store, place);
        }
        address += here;
        size -= here;
    }
}

/* A load: so it races with plain stores, and with no other atomic access. */
void access_atomically(struct thread *thread, uintptr_t address, size_t size, uintptr_t place)
{
    access_bytes(thread, address, size, false, place);
}

void mark_synchronizing(uintptr_t address)
{
    cell *cell = cell_at(address);

    if (cell)
        atomic_fetch_or(cell, IS_SYNCHRONIZING);
}

bool is_synchronizing(uintptr_t address)
{
    cell *block = block_at(address);

    return block && atomic_load(&block[(address & ((1u << BLOCK_BITS) - 1)) / WORD]) & IS_SYNCHRONIZING;
}

/* Lets go of what is known of the word. */
static void forget_word(struct thread *thread, cell *cell, uintptr_t address, uintptr_t place)
{
    uint32_t has = atomic_load_explicit(cell, memory_order_relaxed);

    if (!has)
        return;
    if (has & IS_SYNCHRONIZING)
        for (uintptr_t at = 0; at < WORD; at++)
            object_gone(address + at);
    if (thread && has & ~IS_SYNCHRONIZING)
        access_word(thread, cell, true, place);
    atomic_store_explicit(cell, 0, memory_order_relaxed);
}

/* Of these bytes, all in one block. */
static void forget_in_block(struct thread *thread, cell *block, uintptr_t address, size_t size, uintptr_t place)
{
    uintptr_t inside = address & ((1u << BLOCK_BITS) - 1);

    if (!thread && size == 1u << BLOCK_BITS) {
        madvise((void *)block, CELLS * sizeof *block, MADV_DONTNEED);
        return;
    }
    for (size_t at = inside / WORD; at <= (inside + size - 1) / WORD; at++)
        forget_word(thread, &block[at], (address - inside) + at * WORD, place);
}

static void forget(struct thread *thread, uintptr_t address, size_t size, uintptr_t place)
{
    while (size) {
        size_t here = (1u << BLOCK_BITS) - (address & ((1u << BLOCK_BITS) - 1));
        cell *block = block_at(address);
        if (here > size)
            here = size;
        if (block)
            forget_in_block(thread, block, address, here, place);
        address += here;
        size -= here;
    }
}

void bytes_are_freed(struct thread *thread, uintptr_t address, size_t size, uintptr_t place)
{
    forget(thread, address, size, place);
}

void bytes_are_new(uintptr_t address, size_t size)
{
    forget(NULL, address, size, 0);
}
