/* Numbers of words, where they have to be quick: what an access of a word that was accessed before does. */
#ifndef CEVANDLE_RECORDER_WORDS_H
#define CEVANDLE_RECORDER_WORDS_H

#include "recorder.h"

#pragma GCC visibility push(hidden)

/*
 * A word of four bytes has a cell: 0 before it is touched, and then its number, or where its parts stand if it was
 * accessed in parts. The cells of each mebibyte of memory stand together, and take memory as they are touched.
 */
typedef _Atomic uint32_t cell;

enum {
    WORD = 4,
    BLOCK_BITS = 20,
    CELLS = 1 << (BLOCK_BITS - 2),
    IS_PARTED = 1u << 30,
    NUMBER = (1u << 30) - 1,
};
#define IS_SYNCHRONIZING (1u << 31)
#define ADDRESS_BITS 47
#define BLOCKS ((uintptr_t)1 << (ADDRESS_BITS - BLOCK_BITS))

extern cell *_Atomic *blocks;
cell *new_block(cell *_Atomic *place);
/* What the cell has, after it was given a number; 0 if there are no more. */
uint32_t number_of(cell *cell);
/* An access of a whole word that was ever accessed in parts. */
void access_parted(struct thread *thread, uint32_t has, bool is_store, uintptr_t place);
/* The thread's accesses are as many as it keeps: writes them. */
void write_kept(struct thread *thread);

/* The cell of the word at the address; NULL if memory ran out. */
static inline cell *cell_at(uintptr_t address)
{
    if (__builtin_expect(address >> ADDRESS_BITS != 0, 0))
        return NULL;
    cell *_Atomic *place = &blocks[address >> BLOCK_BITS];
    cell *block = atomic_load_explicit(place, memory_order_acquire);

    if (__builtin_expect(!block, 0) && !(block = new_block(place)))
        return NULL;
    return &block[(address & ((1u << BLOCK_BITS) - 1)) / WORD];
}

/* What a thread remembers of a word: its synchronization after which it kept an access, and whether that stored. */
static ALWAYS_INLINE uint32_t as_remembered(const struct thread *thread, bool is_store)
{
    return thread->interval << 1 | is_store;
}

/* Whether an access of the word was kept since the thread's last synchronization that is as strong. */
static ALWAYS_INLINE bool is_kept(const struct thread *thread, uint32_t number, bool is_store)
{
    uint32_t like = thread->remembered[number];

    return (is_store ? like : like | 1) == as_remembered(thread, true);
}

/*
 * The same of one aligned word, or of two: so a loop over what it accessed before costs little. No thread remembers number 0, which
 * a new word has.
 */
static ALWAYS_INLINE bool are_kept(const struct thread *thread, uintptr_t address, size_t count, bool is_store)
{
    cell *block = atomic_load_explicit(&blocks[address >> BLOCK_BITS & (BLOCKS - 1)], memory_order_acquire);
    uint64_t cells;

    if (__builtin_expect(!block, 0))
        return false;
    block += (address & ((1u << BLOCK_BITS) - 1)) / WORD;
    cells = count == 2 ? __atomic_load_n((const uint64_t *)block, __ATOMIC_RELAXED) : atomic_load_explicit(block, memory_order_relaxed);
    for (size_t at = 0; at < count; at++, cells >>= 32)
        if (cells & IS_PARTED || !is_kept(thread, (uint32_t)cells & NUMBER, is_store))
            return false;
    return true;
}

/* Keeps an access, unless one as strong was kept since the thread's last synchronization. */
static inline void keep(struct thread *thread, uint32_t number, bool is_store, uintptr_t place)
{
    if (is_kept(thread, number, is_store))
        return;
    thread->remembered[number] = as_remembered(thread, is_store);
    uint32_t kept = atomic_load_explicit(&thread->kept, memory_order_relaxed);
    if (__builtin_expect(kept == KEPT_ACCESSES, 0)) {
        write_kept(thread);
        kept = 0;
    }
    thread->accesses[kept] = (struct access){(uint64_t)place << 1 | is_store, number - 1};
    atomic_store_explicit(&thread->kept, kept + 1, memory_order_release);
}

/*
 * An access of a whole word is one of its number. If it was ever accessed in parts, a load is also one of each of its bytes.
 * An access of some bytes is one of theirs, and a load of the whole: so it races with stores of the whole, and with accesses
 * of the same bytes, and not with those of their neighbours.
 */
static inline void access_word(struct thread *thread, cell *cell, bool is_store, uintptr_t place)
{
    uint32_t has = atomic_load_explicit(cell, memory_order_relaxed) & ~IS_SYNCHRONIZING;

    if (__builtin_expect(!has, 0))
        has = number_of(cell);
    if (__builtin_expect(has & IS_PARTED, 0))
        access_parted(thread, has, is_store, place);
    else if (__builtin_expect(has, 1))
        keep(thread, has, is_store, place);
}

/* An access of so many whole words. */
static inline void access_words(struct thread *thread, uintptr_t address, size_t count, bool is_store, uintptr_t place)
{
    for (size_t at = 0; at < count; at++) {
        cell *cell = cell_at(address + at * WORD);
        if (__builtin_expect(cell != NULL, 1))
            access_word(thread, cell, is_store, place);
    }
}

#pragma GCC visibility pop
#endif
