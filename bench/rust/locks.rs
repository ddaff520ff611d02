//! The two locks with FIFO order, and the same waiting as the product's: pauses, and then sleep.

use std::cell::UnsafeCell;
use std::ffi::c_long;
use std::hint::spin_loop;
use std::ops::{Deref, DerefMut};
use std::ptr;
use std::sync::atomic::{AtomicU64, Ordering};
use std::sync::{Mutex, MutexGuard};
use std::thread;

/// How often a waiting thread looks before it sleeps, with a pause after each look.
const LOOKS_AWAKE: u32 = 128;

unsafe extern "C" {
    fn syscall(number: c_long, ...) -> c_long;
}

const SYS_FUTEX: c_long = 202;
const FUTEX_WAIT_PRIVATE: c_long = 128;
const FUTEX_WAKE_PRIVATE: c_long = 129;

/// Sleeps if the word's low half is still this one's.
pub fn park(word: &AtomicU64, seen: u64) {
    unsafe { syscall(SYS_FUTEX, word.as_ptr(), FUTEX_WAIT_PRIVATE, seen as u32 as c_long, ptr::null::<u8>()) };
}

/// Wakes all that sleep on the word.
pub fn wake(word: &AtomicU64) {
    unsafe { syscall(SYS_FUTEX, word.as_ptr(), FUTEX_WAKE_PRIVATE, i32::MAX as c_long) };
}

/// Waits for as long as a thread stays awake: whether the word is the number.
pub fn wait_awake(word: &AtomicU64, number: u64) -> bool {
    for _ in 0..LOOKS_AWAKE {
        if word.load(Ordering::Acquire) == number {
            return true;
        }
        spin_loop();
    }
    false
}

/// Waits until the word is the number. Who sleeps is counted first, and looks again: who leaves reads the count last.
fn wait(word: &AtomicU64, number: u64, sleepers: &AtomicU64) {
    if !wait_awake(word, number) {
        sleepers.fetch_add(1, Ordering::SeqCst);
        sleep(word, number);
        sleepers.fetch_sub(1, Ordering::Relaxed);
    }
}

#[cold]
fn sleep(word: &AtomicU64, number: u64) {
    loop {
        let seen = word.load(Ordering::SeqCst);
        if seen == number {
            return;
        }
        park(word, seen);
    }
}

fn pass(word: &AtomicU64, number: u64, sleepers: &AtomicU64) {
    word.store(number, Ordering::SeqCst);
    if sleepers.load(Ordering::SeqCst) > 0 {
        wake(word);
    }
}

pub trait Queue: Sync {
    fn new(seats: usize) -> Self;
    fn enter(&self) -> u64;
    fn leave(&self, number: u64);
}

/// A word on lines of its own, so that a write of it disturbs nobody who waits for another one.
#[repr(align(128))]
pub struct Line(pub AtomicU64);

impl Line {
    pub fn new() -> Line {
        Line(AtomicU64::new(0))
    }
}

pub struct Tickets {
    next: Line,
    serving: Line,
    sleepers: Line,
}

impl Queue for Tickets {
    fn new(_seats: usize) -> Self {
        Tickets { next: Line::new(), serving: Line::new(), sleepers: Line::new() }
    }

    fn enter(&self) -> u64 {
        let number = self.next.0.fetch_add(1, Ordering::Relaxed);
        wait(&self.serving.0, number, &self.sleepers.0);
        number
    }

    fn leave(&self, number: u64) {
        pass(&self.serving.0, number + 1, &self.sleepers.0);
    }
}

/// As many words as there are seats, or more: a power of two, so that a number's place is a mask away.
pub struct Row {
    next: Line,
    words: Box<[Line]>,
    sleepers: Line,
}

impl Row {
    fn at(&self, number: u64) -> &AtomicU64 {
        &self.words[number as usize & (self.words.len() - 1)].0
    }
}

impl Queue for Row {
    fn new(seats: usize) -> Self {
        let words = (0..seats.next_power_of_two()).map(|_| Line::new()).collect();
        Row { next: Line::new(), words, sleepers: Line::new() }
    }

    fn enter(&self) -> u64 {
        let number = self.next.0.fetch_add(1, Ordering::Relaxed);
        wait(self.at(number), number, &self.sleepers.0);
        number
    }

    fn leave(&self, number: u64) {
        pass(self.at(number + 1), number + 1, &self.sleepers.0);
    }
}

/// A value that one thread at a time gets at: whoever std's Mutex lets in, or in the order of drawing.
pub enum Guarded<T> {
    ByMutex(Mutex<T>),
    InOrder(Row, UnsafeCell<T>),
}

unsafe impl<T: Send> Sync for Guarded<T> {}

pub enum Held<'a, T> {
    ByMutex(MutexGuard<'a, T>),
    InOrder(&'a Row, u64, &'a UnsafeCell<T>),
}

impl<T> Guarded<T> {
    /// For so many threads where they are let in by the order of drawing.
    pub fn new(value: T, in_order: Option<usize>) -> Self {
        match in_order {
            None => Guarded::ByMutex(Mutex::new(value)),
            Some(threads) => Guarded::InOrder(Row::new(threads), UnsafeCell::new(value)),
        }
    }

    pub fn lock(&self) -> Held<'_, T> {
        match self {
            Guarded::ByMutex(mutex) => Held::ByMutex(mutex.lock().unwrap()),
            Guarded::InOrder(row, value) => Held::InOrder(row, row.enter(), value),
        }
    }

    pub fn into_inner(self) -> T {
        match self {
            Guarded::ByMutex(mutex) => mutex.into_inner().unwrap(),
            Guarded::InOrder(_, value) => value.into_inner(),
        }
    }
}

impl<T> Deref for Held<'_, T> {
    type Target = T;

    fn deref(&self) -> &T {
        match self {
            Held::ByMutex(guard) => guard,
            Held::InOrder(_, _, value) => unsafe { &*value.get() },
        }
    }
}

impl<T> DerefMut for Held<'_, T> {
    fn deref_mut(&mut self) -> &mut T {
        match self {
            Held::ByMutex(guard) => guard,
            Held::InOrder(_, _, value) => unsafe { &mut *value.get() },
        }
    }
}

impl<T> Drop for Held<'_, T> {
    fn drop(&mut self) {
        if let Held::InOrder(row, number, _) = self {
            row.leave(*number);
        }
    }
}

struct Counter<Q> {
    lock: Q,
    count: UnsafeCell<u64>,
}

unsafe impl<Q: Queue> Sync for Counter<Q> {}

impl<Q: Queue> Counter<Q> {
    fn add(&self) {
        let number = self.lock.enter();
        unsafe { *self.count.get() += 1 };
        self.lock.leave(number);
    }
}

pub fn count<Q: Queue>(threads: usize, times: usize) -> u64 {
    let counter = Counter { lock: Q::new(threads), count: UnsafeCell::new(0) };
    thread::scope(|scope| {
        for _ in 0..threads {
            scope.spawn(|| (0..times).for_each(|_| counter.add()));
        }
    });
    counter.count.into_inner()
}
