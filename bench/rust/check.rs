//! A plain judge of traces: one pass over a trace's text, by FastTrack and a flat memory, as `lrc check --lax` judges by its
//! default model. It prints the same of a trace that is faithful and has no race; of another it says only which line, event
//! or pair of events.

use crate::journal::{self, Last, Loads, before, join};
use std::collections::VecDeque;
use std::process::exit;

const PROCESSORS: usize = 16;

type Time = journal::Time<PROCESSORS>;

/// What an event did.
#[derive(Clone, Copy, PartialEq)]
enum What {
    Load(usize, u32),
    Store(usize, u32),
    Fetch { writers: u32, page: usize, records: u32, words: u32 },
    Ask(usize),
    Acquire(usize),
    Release(usize),
    Set(usize),
    Watch(usize),
    Await(usize),
    Arrive,
    Depart,
}

struct Word {
    value: u32,
    store: Last,
    loads: Loads<PROCESSORS>,
}

struct Judge {
    processors: usize,
    pages: usize,
    times: [Time; PROCESSORS],
    awaited: [Option<What>; PROCESSORS],
    arrived: [u32; PROCESSORS],
    departed: [u32; PROCESSORS],
    locks: Vec<Time>,
    holders: Vec<Option<usize>>,
    flags: Vec<Option<Time>>,
    episodes: VecDeque<Time>,
    gone: u32,
    words: Vec<Word>,
    race: Option<(u32, u32)>,
    traffic: (u64, u64, u64),
}

/// Ends with what is wrong.
fn refuse(what: &str, at: usize) -> ! {
    println!("{what} {at}");
    exit(6)
}

impl Judge {
    fn new(sizes: &[usize]) -> Judge {
        let mut times = [[0; PROCESSORS]; PROCESSORS];
        for (processor, time) in times.iter_mut().enumerate() {
            time[processor] = 1;
        }
        let word = || Word { value: 0, store: Last::default(), loads: Loads::One(Last::default()) };
        Judge {
            processors: sizes[0],
            pages: sizes[1],
            times,
            awaited: [None; PROCESSORS],
            arrived: [0; PROCESSORS],
            departed: [0; PROCESSORS],
            locks: vec![[0; PROCESSORS]; sizes[3]],
            holders: vec![None; sizes[3]],
            flags: vec![None; sizes.get(4).copied().unwrap_or(0)],
            episodes: VecDeque::new(),
            gone: 0,
            words: (0..sizes[1] * sizes[2]).map(|_| word()).collect(),
            race: None,
            traffic: (0, 0, 0),
        }
    }

    fn is_in_range(&self, what: What) -> bool {
        match what {
            What::Load(address, _) | What::Store(address, _) => address < self.words.len(),
            What::Fetch { page, .. } => page < self.pages,
            What::Ask(lock) | What::Acquire(lock) | What::Release(lock) => lock < self.locks.len(),
            What::Set(flag) | What::Watch(flag) | What::Await(flag) => flag < self.flags.len(),
            What::Arrive | What::Depart => true,
        }
    }

    /// Whether the processor may do this next.
    fn may_follow(&self, processor: usize, what: What) -> bool {
        if let Some(awaited) = self.awaited[processor] {
            return what == awaited
                && match what {
                    What::Acquire(lock) => self.holders[lock].is_none(),
                    What::Await(flag) => self.flags[flag].is_some(),
                    _ => self.arrived[..self.processors].iter().all(|count| *count > self.departed[processor]),
                };
        }
        match what {
            What::Ask(lock) => self.holders[lock] != Some(processor),
            What::Release(lock) => self.holders[lock] == Some(processor),
            What::Acquire(_) | What::Await(_) | What::Depart => false,
            _ => true,
        }
    }

    fn races(&mut self, first: u32, second: u32) {
        self.race = Some((first, second));
    }

    /// Judges a load up to the first race.
    fn load(&mut self, place: u32, processor: usize, address: usize, value: u32) {
        let time = &self.times[processor];
        let now = Last { processor: processor as u8, interval: time[processor], place };
        let word = &mut self.words[address];
        if !before(&word.store, time) {
            let first = word.store.place;
            return self.races(first, place);
        }
        if word.value != value {
            refuse("unfaithful", place as usize);
        }
        word.loads.note(now, time);
    }

    /// Takes a store up to the first race.
    fn store(&mut self, place: u32, processor: usize, address: usize, value: u32) {
        let time = &self.times[processor];
        let now = Last { processor: processor as u8, interval: time[processor], place };
        let word = &mut self.words[address];
        let mut nearest = (!before(&word.store, time)).then_some(word.store.place);
        let loads: &[Last] = match &word.loads {
            Loads::One(last) => std::slice::from_ref(last),
            Loads::Many(all) => all.as_slice(),
        };
        for last in loads.iter().filter(|last| !before(last, time)) {
            nearest = nearest.max(Some(last.place));
        }
        if let Some(first) = nearest {
            return self.races(first, place);
        }
        if let Loads::Many(_) = word.loads {
            word.loads = Loads::One(Last::default());
        }
        word.store = now;
        word.value = value;
    }

    fn close(&mut self, processor: usize) {
        self.times[processor][processor] += 1;
    }

    fn arrive(&mut self, processor: usize) {
        let episode = (self.arrived[processor] - self.gone) as usize;
        if self.episodes.len() <= episode {
            self.episodes.push_back([0; PROCESSORS]);
        }
        join(&mut self.episodes[episode], &self.times[processor]);
        self.arrived[processor] += 1;
        self.close(processor);
    }

    fn depart(&mut self, processor: usize) {
        join(&mut self.times[processor], &self.episodes[(self.departed[processor] - self.gone) as usize]);
        self.departed[processor] += 1;
        if self.departed[..self.processors].iter().all(|count| *count > self.gone) {
            self.episodes.pop_front();
            self.gone += 1;
        }
    }

    fn note(&mut self, place: u32, processor: usize, what: What) {
        self.awaited[processor] = None;
        match what {
            What::Load(address, value) if self.race.is_none() => self.load(place, processor, address, value),
            What::Store(address, value) if self.race.is_none() => self.store(place, processor, address, value),
            What::Load(..) | What::Store(..) => {}
            What::Fetch { writers, records, words, .. } => {
                self.traffic.0 += 2 * u64::from(writers);
                self.traffic.1 += u64::from(records);
                self.traffic.2 += u64::from(words);
            }
            What::Ask(lock) => {
                self.close(processor);
                self.awaited[processor] = Some(What::Acquire(lock));
            }
            What::Watch(flag) => {
                self.close(processor);
                self.awaited[processor] = Some(What::Await(flag));
            }
            What::Acquire(lock) => {
                self.holders[lock] = Some(processor);
                join(&mut self.times[processor], &self.locks[lock]);
                self.traffic.0 += 2;
            }
            What::Await(flag) => {
                if let Some(time) = &self.flags[flag] {
                    join(&mut self.times[processor], time);
                }
                self.traffic.0 += 2;
            }
            What::Release(lock) => {
                self.holders[lock] = None;
                self.locks[lock] = self.times[processor];
                self.close(processor);
            }
            What::Set(flag) => {
                join(self.flags[flag].get_or_insert([0; PROCESSORS]), &self.times[processor]);
                self.close(processor);
            }
            What::Arrive => {
                self.arrive(processor);
                self.awaited[processor] = Some(What::Depart);
                self.traffic.0 += 1;
            }
            What::Depart => {
                self.depart(processor);
                self.traffic.0 += 1;
            }
        }
    }
}

/// The number below 2^32 that a word writes, without a leading zero.
fn number(word: &[u8]) -> Option<u32> {
    if word.is_empty() || word.len() > 1 && word[0] == b'0' {
        return None;
    }
    word.iter().try_fold(0u32, |sum, byte| match byte {
        b'0'..=b'9' => sum.checked_mul(10)?.checked_add(u32::from(byte - b'0')),
        _ => None,
    })
}

/// The place, the processor and what it did, of an event's line without a label.
fn event_of(line: &[u8]) -> Option<(u32, usize, What)> {
    let mut words = line.split(|byte| *byte == b' ');
    if words.next()? != b"event" {
        return None;
    }
    let place = number(words.next()?)?;
    let processor = number(words.next()?)? as usize;
    let name = words.next()?;
    let mut next = || words.next().and_then(number);
    let what = match name {
        b"load" => What::Load(next()? as usize, next()?),
        b"store" => What::Store(next()? as usize, next()?),
        b"fetch" => What::Fetch { page: next()? as usize, writers: next()?, records: next()?, words: next()? },
        b"ask" => What::Ask(next()? as usize),
        b"acquire" => What::Acquire(next()? as usize),
        b"release" => What::Release(next()? as usize),
        b"set" => What::Set(next()? as usize),
        b"watch" => What::Watch(next()? as usize),
        b"await" => What::Await(next()? as usize),
        b"arrive" => What::Arrive,
        b"depart" => What::Depart,
        _ => return None,
    };
    words.next().is_none().then_some((place, processor, what))
}

/// A line without its label.
fn without_label(line: &[u8]) -> &[u8] {
    line.windows(2).position(|two| two == b"  ").map_or(line, |at| &line[..at])
}

/// Judges the trace of the file.
pub fn check(file: &str) {
    let text = std::fs::read(file).unwrap_or_else(|_| refuse("no file", 0));
    let mut lines = text.split_inclusive(|byte| *byte == b'\n').map(|line| without_label(&line[..line.len() - 1]));
    let head: Option<Vec<usize>> = lines.next().and_then(|line| line.strip_prefix(b"cluster "))
        .map(|line| line.split(|byte| *byte == b' ').filter_map(number).map(|size| size as usize).collect());
    let sizes = head.filter(|sizes| sizes.len() >= 4).unwrap_or_else(|| refuse("line", 1));
    let mut judge = Judge::new(&sizes);
    let mut count = 0;
    for line in lines {
        let Some((place, processor, what)) = event_of(line) else { refuse("line", count as usize + 2) };
        if place != count || processor >= judge.processors || !judge.is_in_range(what) {
            refuse("line", count as usize + 2);
        }
        if !judge.may_follow(processor, what) {
            refuse("unfaithful", count as usize);
        }
        judge.note(count, processor, what);
        count += 1;
    }
    println!("events {count}\nmodel race-free\nfaithful");
    match judge.race {
        None => println!("verdict race-free"),
        Some((first, second)) => println!("verdict racy {first} {second}"),
    }
    let (messages, records, words) = judge.traffic;
    println!("traffic {messages} {records} {words}");
}
