//! Processors over one book behind a lock: lazy release consistency with timestamps, closed intervals, write notices
//! and records of changed words.

use crate::locks::{Guarded, Held, Line, park, wait_awake, wake};
use std::collections::VecDeque;
use std::mem;
use std::sync::Arc;
use std::sync::atomic::Ordering;
use std::thread;
use std::time::Instant;

const WORDS: usize = 64;
const BLOCK: usize = 256;
const MOST: usize = 1 << 20;

/// What a processor's word says: 0 where it was told nothing.
const TOLD: u64 = 1;
const ASLEEP: u64 = 2;

pub const LOAD: u8 = 0;
pub const STORE: u8 = 1;
pub const FETCH: u8 = 2;
pub const ASK: u8 = 3;
pub const ACQUIRE: u8 = 4;
pub const RELEASE: u8 = 5;
pub const ARRIVE: u8 = 6;
pub const DEPART: u8 = 7;
pub const SET: u8 = 8;
pub const WATCH: u8 = 9;
pub const AWAIT: u8 = 10;

/// What a processor did: 16 bytes, or with `--cfg wide` the 32 that the product's events have.
#[derive(Clone, Copy)]
#[cfg_attr(wide, repr(align(32)))]
pub struct Event {
    pub kind: u8,
    pub processor: u8,
    /// Of a fetch: how many processors' records.
    pub writers: u16,
    /// An address, a page, a lock or a flag.
    pub place: u32,
    /// A word; of a fetch, how many records.
    pub value: u32,
    /// Of a fetch: how many words.
    pub words: u32,
}

pub fn event(processor: u8, kind: u8, place: u32, value: u32) -> Event {
    Event { kind, processor, writers: 0, place, value, words: 0 }
}

type Time = [u32; 16];

/// The changed words of a page: each its offset and its value.
struct Record {
    page: u32,
    owner: u8,
    words: Vec<(u32, u32)>,
}

struct Copy {
    words: Vec<u32>,
    dirty: u64,
    valid: bool,
    missing: Vec<(u64, Arc<Record>)>,
}

#[derive(Debug)]
pub enum Refused {
    OutOfRange,
    Invalid,
    BlockFull,
    Waiting,
    NotYet,
    NotHeld,
    JournalFull,
}

struct Interval {
    number: u32,
    place: u64,
    records: Vec<Arc<Record>>,
}

struct Message {
    time: Time,
    records: Vec<(u64, Arc<Record>)>,
}

struct Lock {
    holder: Option<u8>,
    line: VecDeque<u8>,
    time: Time,
}

struct Flag {
    is_set: bool,
    time: Time,
}

struct Book {
    journal: Vec<Event>,
    closed: u64,
    intervals: Vec<VecDeque<Interval>>,
    times: Vec<Time>,
    locks: Vec<Lock>,
    arrived: u32,
    meeting: Time,
    messages: Vec<Option<Message>>,
    flags: Vec<Flag>,
    watched: Vec<Option<usize>>,
    /// Whom to tell that what they wait for has come: a bit for each.
    ready: u32,
}

/// How the processors' threads wait.
#[derive(Clone, Copy, PartialEq)]
pub enum Waiting {
    /// For the book at a Mutex; for what they wait for they look again and again.
    ByMutex,
    /// For the book in the order of drawing; else as before.
    InOrder,
    /// For the book in the order of drawing; else they sleep until they are told.
    Asleep,
}

pub struct Cluster {
    book: Guarded<Book>,
    /// A word for each processor: whether it was told.
    told: Option<Vec<Line>>,
}

#[derive(Clone, Copy, PartialEq)]
enum Awaits {
    Nothing,
    Lock(u32),
    Meeting,
    Flag(u32),
}

/// Divides addresses by the words of a page, 1 to 64, by a multiplication: exact below 4,096, which no address passes.
#[derive(Clone, Copy)]
struct Divisor {
    words: usize,
    reciprocal: u64,
}

impl Divisor {
    fn new(words: usize) -> Divisor {
        Divisor { words, reciprocal: (1 << 32) / words as u64 + 1 }
    }

    /// The page of an address, and the offset in it.
    fn split(self, address: usize) -> (usize, usize) {
        let page = (address as u64 * self.reciprocal >> 32) as usize;
        (page, address - page * self.words)
    }
}

pub struct Processor {
    number: u8,
    addresses: usize,
    words: Divisor,
    block: Vec<Event>,
    copies: Vec<Copy>,
    stored: u64,
    time: Time,
    held: u32,
    awaits: Awaits,
}

/// Who waits for the flag: a bit for each.
fn watchers(watched: &[Option<usize>], f: usize) -> u32 {
    watched.iter().enumerate().filter(|(_, flag)| **flag == Some(f)).map(|(p, _)| 1 << p).sum()
}

fn join(time: &mut Time, other: &Time) {
    for (one, two) in time.iter_mut().zip(other) {
        *one = (*one).max(*two);
    }
}

impl Book {
    fn room(&self, events: usize) -> Result<(), Refused> {
        if self.journal.len() + events > MOST { Err(Refused::JournalFull) } else { Ok(()) }
    }

    fn close(&mut self, p: u8, block: &[Event], last: Event, records: Vec<Arc<Record>>) -> Result<(), Refused> {
        self.room(block.len() + 1)?;
        self.journal.extend_from_slice(block);
        self.journal.push(last);
        let own = &mut self.times[p as usize][p as usize];
        *own += 1;
        self.closed += 1;
        if !records.is_empty() {
            let interval = Interval { number: *own, place: self.closed, records };
            self.intervals[p as usize].push_back(interval);
        }
        Ok(())
    }

    fn news(&self, old: &Time, new: &Time) -> Vec<(u64, Arc<Record>)> {
        let mut all = Vec::new();
        for (owner, intervals) in self.intervals.iter().enumerate() {
            if new[owner] <= old[owner] {
                continue;
            }
            let from = intervals.partition_point(|i| i.number <= old[owner]);
            for interval in intervals.range(from..) {
                if interval.number > new[owner] {
                    break;
                }
                all.extend(interval.records.iter().map(|record| (interval.place, record.clone())));
            }
        }
        all.sort_by_key(|sent| sent.0);
        all
    }

    fn post(&mut self, p: u8, time: Time) {
        let records = self.news(&self.times[p as usize], &time);
        self.messages[p as usize] = Some(Message { time, records });
        self.ready |= 1 << p;
    }

    /// What has come for the processor: of a flag, what is there now.
    fn message(&mut self, p: usize, awaits: Awaits) -> Option<Message> {
        let Awaits::Flag(f) = awaits else {
            return self.messages[p].take();
        };
        let Flag { is_set: true, time } = self.flags[f as usize] else {
            return None;
        };
        Some(Message { time, records: self.news(&self.times[p], &time) })
    }

    fn grant(&mut self, p: u8, l: usize) {
        self.locks[l].holder = Some(p);
        let time = self.locks[l].time;
        self.post(p, time);
    }

    /// Drops what everybody has, after `p`, which alone has learnt something, had this time before: so only of owners of
    /// whom it learnt.
    fn trim(&mut self, p: usize, before: &Time) {
        for (owner, intervals) in self.intervals.iter_mut().enumerate() {
            if self.times[p][owner] == before[owner] {
                continue;
            }
            let seen = self.times.iter().map(|time| time[owner]).min().unwrap_or(0);
            while intervals.front().is_some_and(|first| first.number <= seen) {
                intervals.pop_front();
            }
        }
    }
}

impl Cluster {
    /// With one Mutex round the book.
    pub fn new(processors: usize, pages: usize, words: usize, locks: usize) -> (Cluster, Vec<Processor>) {
        Cluster::with(processors, pages, words, locks, 0, Waiting::ByMutex)
    }

    /// With a Mutex, or with the row lock, which lets threads in by the order of drawing.
    pub fn with(
        processors: usize,
        pages: usize,
        words: usize,
        locks: usize,
        flags: usize,
        waiting: Waiting,
    ) -> (Cluster, Vec<Processor>) {
        let book = Book {
            journal: Vec::with_capacity(BLOCK * processors),
            closed: 0,
            intervals: (0..processors).map(|_| VecDeque::new()).collect(),
            times: vec![[0; 16]; processors],
            locks: (0..locks)
                .map(|_| Lock { holder: None, line: VecDeque::with_capacity(processors), time: [0; 16] })
                .collect(),
            arrived: 0,
            meeting: [0; 16],
            messages: (0..processors).map(|_| None).collect(),
            flags: (0..flags).map(|_| Flag { is_set: false, time: [0; 16] }).collect(),
            watched: vec![None; processors],
            ready: 0,
        };
        let all = (0..processors).map(|number| Processor {
            number: number as u8,
            addresses: pages * words,
            words: Divisor::new(words),
            block: Vec::with_capacity(BLOCK),
            copies: (0..pages)
                .map(|_| Copy { words: vec![0; words], dirty: 0, valid: true, missing: Vec::new() })
                .collect(),
            stored: 0,
            time: [0; 16],
            held: 0,
            awaits: Awaits::Nothing,
        });
        let told = (waiting == Waiting::Asleep).then(|| (0..processors).map(|_| Line::new()).collect());
        let in_order = (waiting != Waiting::ByMutex).then_some(processors);
        (Cluster { book: Guarded::new(book, in_order), told }, all.collect())
    }

    /// Forgets what the processor was told: while it is in the book, before it can be told again.
    fn forget(&self, m: &Processor) {
        if let Some(told) = &self.told {
            told[m.number as usize].0.store(0, Ordering::Relaxed);
        }
    }

    /// Tells the processors that what they wait for has come.
    fn tell(&self, mut ready: u32) {
        let Some(told) = &self.told else { return };
        while ready != 0 {
            let word = &told[ready.trailing_zeros() as usize].0;
            ready &= ready - 1;
            if word.swap(TOLD, Ordering::SeqCst) == ASLEEP {
                wake(word);
            }
        }
    }

    /// Waits until the processor was told; false where nobody tells it.
    pub fn wait(&self, m: &Processor) -> bool {
        let Some(told) = &self.told else { return false };
        let word = &told[m.number as usize].0;
        if !wait_awake(word, TOLD) {
            while word.load(Ordering::SeqCst) != TOLD {
                let _ = word.compare_exchange(0, ASLEEP, Ordering::SeqCst, Ordering::SeqCst);
                park(word, ASLEEP);
            }
        }
        // What was told up to here is looked for next.
        word.store(0, Ordering::SeqCst);
        true
    }

    pub fn flush(&self, m: &mut Processor) -> Result<(), Refused> {
        let mut book = self.book.lock();
        book.room(m.block.len())?;
        book.journal.extend_from_slice(&m.block);
        drop(book);
        m.block.clear();
        Ok(())
    }

    /// Leaves the book, and tells those for whom something has come. What the processor itself was told earlier is over.
    fn leave(&self, mut book: Held<'_, Book>, m: &Processor) {
        let ready = mem::take(&mut book.ready);
        self.forget(m);
        drop(book);
        self.tell(ready);
    }

    fn closed(&self, m: &mut Processor) {
        m.block.clear();
        m.clean();
        m.time[m.number as usize] += 1;
    }

    pub fn ask(&self, m: &mut Processor, l: usize) -> Result<(), Refused> {
        if m.awaits != Awaits::Nothing || m.held >> l & 1 == 1 {
            return Err(Refused::Waiting);
        }
        let records = m.harvest();
        let mut book = self.book.lock();
        book.close(m.number, &m.block, event(m.number, ASK, l as u32, 0), records)?;
        if book.locks[l].holder.is_none() {
            book.grant(m.number, l);
        } else {
            book.locks[l].line.push_back(m.number);
        }
        self.leave(book, m);
        self.closed(m);
        m.awaits = Awaits::Lock(l as u32);
        Ok(())
    }

    pub fn release(&self, m: &mut Processor, l: usize) -> Result<(), Refused> {
        if m.awaits != Awaits::Nothing || m.held >> l & 1 == 0 {
            return Err(Refused::NotHeld);
        }
        let records = m.harvest();
        let mut book = self.book.lock();
        book.close(m.number, &m.block, event(m.number, RELEASE, l as u32, 0), records)?;
        book.locks[l].time = book.times[m.number as usize];
        book.locks[l].holder = None;
        if let Some(next) = book.locks[l].line.pop_front() {
            book.grant(next, l);
        }
        self.leave(book, m);
        self.closed(m);
        m.held &= !(1 << l);
        Ok(())
    }

    pub fn arrive(&self, m: &mut Processor) -> Result<(), Refused> {
        if m.awaits != Awaits::Nothing {
            return Err(Refused::Waiting);
        }
        let records = m.harvest();
        let mut book = self.book.lock();
        book.close(m.number, &m.block, event(m.number, ARRIVE, 0, 0), records)?;
        let time = book.times[m.number as usize];
        join(&mut book.meeting, &time);
        book.arrived += 1;
        if book.arrived as usize == book.times.len() {
            book.arrived = 0;
            let time = book.meeting;
            for p in 0..book.times.len() {
                book.post(p as u8, time);
            }
        }
        self.leave(book, m);
        self.closed(m);
        m.awaits = Awaits::Meeting;
        Ok(())
    }

    pub fn set(&self, m: &mut Processor, f: usize) -> Result<(), Refused> {
        if m.awaits != Awaits::Nothing {
            return Err(Refused::Waiting);
        }
        let records = m.harvest();
        let mut book = self.book.lock();
        book.close(m.number, &m.block, event(m.number, SET, f as u32, 0), records)?;
        let time = book.times[m.number as usize];
        join(&mut book.flags[f].time, &time);
        book.flags[f].is_set = true;
        book.ready |= watchers(&book.watched, f);
        self.leave(book, m);
        self.closed(m);
        Ok(())
    }

    pub fn watch(&self, m: &mut Processor, f: usize) -> Result<(), Refused> {
        if m.awaits != Awaits::Nothing {
            return Err(Refused::Waiting);
        }
        let records = m.harvest();
        let mut book = self.book.lock();
        book.close(m.number, &m.block, event(m.number, WATCH, f as u32, 0), records)?;
        book.watched[m.number as usize] = Some(f);
        if book.flags[f].is_set {
            book.ready |= 1 << m.number;
        }
        self.leave(book, m);
        self.closed(m);
        m.awaits = Awaits::Flag(f as u32);
        Ok(())
    }

    pub fn take(&self, m: &mut Processor) -> Result<(), Refused> {
        let last = match m.awaits {
            Awaits::Nothing => return Err(Refused::Waiting),
            Awaits::Lock(l) => event(m.number, ACQUIRE, l, 0),
            Awaits::Meeting => event(m.number, DEPART, 0, 0),
            Awaits::Flag(f) => event(m.number, AWAIT, f, 0),
        };
        let mut book = self.book.lock();
        let Some(message) = book.message(m.number as usize, m.awaits) else {
            return Err(Refused::NotYet);
        };
        book.watched[m.number as usize] = None;
        book.room(1)?;
        book.journal.push(last);
        let before = book.times[m.number as usize];
        join(&mut book.times[m.number as usize], &message.time);
        if !message.records.is_empty() {
            book.trim(m.number as usize, &before);
        }
        drop(book);
        join(&mut m.time, &message.time);
        m.learn(message.records);
        if let Awaits::Lock(l) = m.awaits {
            m.held |= 1 << l;
        }
        m.awaits = Awaits::Nothing;
        Ok(())
    }

    /// The journal, with the open blocks at its end.
    pub fn finish(self, all: Vec<Processor>) -> Vec<Event> {
        let mut journal = self.book.into_inner().journal;
        all.iter().for_each(|m| journal.extend_from_slice(&m.block));
        journal
    }
}

impl Processor {
    pub fn page_of(&self, address: usize) -> usize {
        self.words.split(address).0
    }

    fn admit(&self, address: usize) -> Result<(usize, usize), Refused> {
        if address >= self.addresses {
            return Err(Refused::OutOfRange);
        }
        let (page, offset) = self.words.split(address);
        let Some(copy) = self.copies.get(page) else {
            return Err(Refused::OutOfRange);
        };
        if !copy.valid {
            return Err(Refused::Invalid);
        }
        self.admit_event()?;
        Ok((page, offset))
    }

    fn admit_event(&self) -> Result<(), Refused> {
        if self.awaits != Awaits::Nothing {
            return Err(Refused::Waiting);
        }
        if self.block.len() == BLOCK {
            return Err(Refused::BlockFull);
        }
        Ok(())
    }

    pub fn load(&mut self, address: usize) -> Result<u32, Refused> {
        let (page, offset) = self.admit(address)?;
        let word = self.copies[page].words[offset];
        self.block.push(event(self.number, LOAD, address as u32, word));
        Ok(word)
    }

    pub fn store(&mut self, address: usize, word: u32) -> Result<(), Refused> {
        let (page, offset) = self.admit(address)?;
        let copy = &mut self.copies[page];
        copy.words[offset] = word;
        copy.dirty |= 1 << offset;
        self.stored |= 1 << page;
        self.block.push(event(self.number, STORE, address as u32, word));
        Ok(())
    }

    pub fn fetch(&mut self, page: usize) -> Result<(), Refused> {
        self.admit_event()?;
        let Some(copy) = self.copies.get_mut(page) else {
            return Err(Refused::OutOfRange);
        };
        if copy.valid {
            return Err(Refused::Invalid);
        }
        let mut writers = 0u16;
        let mut words = 0;
        for (_, record) in &copy.missing {
            writers |= 1 << record.owner;
            words += record.words.len() as u32;
            for (offset, word) in &record.words {
                copy.words[*offset as usize] = *word;
            }
        }
        let records = copy.missing.len() as u32;
        copy.missing.clear();
        copy.valid = true;
        self.block.push(Event {
            kind: FETCH,
            processor: self.number,
            writers: writers.count_ones() as u16,
            place: page as u32,
            value: records,
            words,
        });
        Ok(())
    }

    fn learn(&mut self, records: Vec<(u64, Arc<Record>)>) {
        for (place, record) in records {
            let copy = &mut self.copies[record.page as usize];
            let at = copy.missing.partition_point(|missing| missing.0 <= place);
            copy.valid = false;
            copy.missing.insert(at, (place, record));
        }
    }

    fn harvest(&self) -> Vec<Arc<Record>> {
        let mut records = Vec::new();
        let mut stored = self.stored;
        while stored != 0 {
            let page = stored.trailing_zeros();
            stored &= stored - 1;
            let copy = &self.copies[page as usize];
            let mut words = Vec::with_capacity(copy.dirty.count_ones() as usize);
            let mut dirty = copy.dirty;
            while dirty != 0 {
                let offset = dirty.trailing_zeros();
                dirty &= dirty - 1;
                words.push((offset, copy.words[offset as usize]));
            }
            records.push(Arc::new(Record { page, owner: self.number, words }));
        }
        records
    }

    fn clean(&mut self) {
        while self.stored != 0 {
            self.copies[self.stored.trailing_zeros() as usize].dirty = 0;
            self.stored &= self.stored - 1;
        }
    }
}

pub fn accesses(work: &str, times: usize) -> u32 {
    let mut words = 0;
    for _ in 0..times {
        let (_cluster, mut all) = Cluster::new(16, 1, WORDS, 0);
        for m in &mut all {
            for value in 0..4 {
                for address in 0..64 {
                    match work {
                        "load" => words |= m.load(address).unwrap(),
                        "store" => m.store(address, value).unwrap(),
                        _ => {}
                    }
                }
            }
        }
    }
    words
}

pub fn grants(times: usize) -> usize {
    let (cluster, mut all) = Cluster::new(1, 1, WORDS, 1);
    for _ in 0..times {
        cluster.ask(&mut all[0], 0).unwrap();
        cluster.take(&mut all[0]).unwrap();
        cluster.release(&mut all[0], 0).unwrap();
    }
    times
}

/// The nanoseconds of 960 fetches of 64 words, the least of so many times.
pub fn fetches(times: usize) -> u128 {
    let (cluster, mut all) = Cluster::new(16, 64, WORDS, 1);
    let mut least = u128::MAX;
    for _ in 0..times {
        for block in 0..16 {
            for place in 0..256 {
                all[0].store(256 * block + place, 7).unwrap();
            }
            cluster.flush(&mut all[0]).unwrap();
        }
        all.iter_mut().for_each(|m| cluster.arrive(m).unwrap());
        all.iter_mut().for_each(|m| cluster.take(m).unwrap());
        let began = Instant::now();
        for m in &mut all[1..] {
            for page in 0..64 {
                m.fetch(page).unwrap();
            }
        }
        least = least.min(began.elapsed().as_nanos());
    }
    least
}

fn insist(mut call: impl FnMut() -> Result<(), Refused>) {
    while let Err(refused) = call() {
        match refused {
            Refused::NotYet => thread::yield_now(),
            other => panic!("{other:?}"),
        }
    }
}

fn add(cluster: &Cluster, m: &mut Processor) {
    insist(|| cluster.ask(m, 0));
    insist(|| cluster.take(m));
    if let Err(Refused::Invalid) = m.load(0) {
        m.fetch(0).unwrap();
    }
    let word = m.load(0).unwrap();
    m.store(0, word + 1).unwrap();
    insist(|| cluster.release(m, 0));
}

fn meet(cluster: &Cluster, m: &mut Processor) {
    insist(|| cluster.arrive(m));
    insist(|| cluster.take(m));
}

fn on_threads(threads: usize, times: usize, task: fn(&Cluster, &mut Processor)) -> usize {
    let (cluster, mut all) = Cluster::new(threads, 1, 1, 1);
    thread::scope(|scope| {
        for m in &mut all {
            scope.spawn(|| (0..times).for_each(|_| task(&cluster, m)));
        }
    });
    cluster.finish(all).len()
}

pub fn hand_over(threads: usize, times: usize) -> usize {
    on_threads(threads, times, add)
}

pub fn barrier(threads: usize, times: usize) -> usize {
    on_threads(threads, times, meet)
}
