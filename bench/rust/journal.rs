//! The works of `bench` on a journal: the same events, in 16 bytes each.

use crate::book::{ACQUIRE, ARRIVE, ASK, AWAIT, DEPART, Event, FETCH, LOAD, RELEASE, SET, STORE, WATCH, event};
use std::hint::black_box;

const PROCESSORS: usize = 8;
const ADDRESSES: usize = 4096;
const LOCKS: usize = 64;
const FLAGS: usize = 32;
const PERIOD: usize = 16384;

fn value_before(round: usize) -> u32 {
    if round % 8 != 0 {
        round as u32
    } else if round >= PERIOD {
        (round - PERIOD + 8) as u32
    } else {
        0
    }
}

fn event_at(place: usize) -> Event {
    let round = place / 8;
    let p = (round % 8) as u8;
    let page = (round / 8 % 64) as u32;
    let address = 64 * page + 2 * (round / 512 % 32) as u32;
    let writers = if round < 512 { u32::from(p) } else { 7 };
    match place % 8 {
        0 => event(p, ASK, page, 0),
        1 => event(p, ACQUIRE, page, 0),
        2 if writers > 0 => Event {
            kind: FETCH,
            processor: p,
            writers: writers as u16,
            place: page,
            value: writers,
            words: 2 * writers,
        },
        2 | 3 => event(p, LOAD, address, value_before(round)),
        4 => event(p, STORE, address, round as u32 + 1),
        5 => event(p, LOAD, address + 1, value_before(round)),
        6 => event(p, STORE, address + 1, round as u32 + 1),
        _ => event(p, RELEASE, page, 0),
    }
}

fn build(events: usize) -> Vec<Event> {
    let mut journal = Vec::with_capacity(events);
    for place in 0..events {
        journal.push(event_at(place));
    }
    journal
}

pub type Time<const P: usize> = [u32; P];

/// The last access of a kind to an address: by whom, in which interval, at which place. An interval of 0 stands for none.
#[derive(Clone, Copy, Default)]
pub struct Last {
    pub processor: u8,
    pub interval: u32,
    pub place: u32,
}

/// The loads since the last store: one, or of each processor the last.
pub enum Loads<const P: usize> {
    One(Last),
    Many(Box<[Last; P]>),
}

impl<const P: usize> Loads<P> {
    /// Takes note of a load, which has this timestamp.
    pub fn note(&mut self, now: Last, time: &Time<P>) {
        match self {
            Loads::One(last) if before(last, time) => *last = now,
            Loads::One(last) => {
                let mut all = Box::new([Last::default(); P]);
                all[last.processor as usize] = *last;
                all[now.processor as usize] = now;
                *self = Loads::Many(all);
            }
            Loads::Many(all) => all[now.processor as usize] = now,
        }
    }
}

struct Address<const P: usize> {
    store: Last,
    loads: Loads<P>,
}

pub fn before<const P: usize>(last: &Last, time: &Time<P>) -> bool {
    last.interval <= time[last.processor as usize]
}

pub fn join<const P: usize>(time: &mut Time<P>, other: &Time<P>) {
    for (own, other) in time.iter_mut().zip(other) {
        *own = (*own).max(*other);
    }
}

/// The first race by place, after Flanagan and Freund, FastTrack (PLDI 2009).
pub fn first_race<const P: usize>(journal: &[Event], processors: usize) -> Option<(usize, usize)> {
    let mut times: [Time<P>; P] = [[0; P]; P];
    for (p, time) in times.iter_mut().enumerate() {
        time[p] = 1;
    }
    let mut locks: Vec<Time<P>> = vec![[0; P]; LOCKS];
    let mut flags: Vec<Time<P>> = vec![[0; P]; FLAGS];
    let mut arrived = 0;
    let mut meeting: Time<P> = [0; P];
    let mut met: [Time<P>; P] = [[0; P]; P];
    let mut addresses: Vec<Address<P>> = (0..ADDRESSES)
        .map(|_| Address { store: Last::default(), loads: Loads::One(Last::default()) })
        .collect();
    for (place, e) in journal.iter().enumerate() {
        let p = e.processor as usize;
        let time = &mut times[p];
        let now = Last { processor: e.processor, interval: time[p], place: place as u32 };
        match e.kind {
            LOAD => {
                let address = &mut addresses[e.place as usize];
                if !before(&address.store, time) {
                    return Some((address.store.place as usize, place));
                }
                address.loads.note(now, time);
            }
            STORE => {
                let address = &mut addresses[e.place as usize];
                if !before(&address.store, time) {
                    return Some((address.store.place as usize, place));
                }
                match &address.loads {
                    Loads::One(last) => {
                        if !before(last, time) {
                            return Some((last.place as usize, place));
                        }
                    }
                    Loads::Many(all) => {
                        let racing = all.iter().filter(|last| !before(last, time)).map(|last| last.place).min();
                        if let Some(first) = racing {
                            return Some((first as usize, place));
                        }
                        address.loads = Loads::One(Last::default());
                    }
                }
                address.store = now;
            }
            ASK | WATCH => time[p] += 1,
            RELEASE => {
                locks[e.place as usize] = *time;
                time[p] += 1;
            }
            ACQUIRE => join(time, &locks[e.place as usize]),
            SET => {
                join(&mut flags[e.place as usize], time);
                time[p] += 1;
            }
            AWAIT => join(time, &flags[e.place as usize]),
            ARRIVE => {
                join(&mut meeting, time);
                time[p] += 1;
                arrived += 1;
                if arrived == processors {
                    arrived = 0;
                    met = [meeting; P];
                }
            }
            DEPART => join(time, &met[p]),
            _ => {}
        }
    }
    None
}

fn replays(journal: &[Event]) -> bool {
    let mut memory = vec![0u32; ADDRESSES];
    for e in journal {
        match e.kind {
            LOAD => {
                if memory[e.place as usize] != e.value {
                    return false;
                }
            }
            STORE => memory[e.place as usize] = e.value,
            _ => {}
        }
    }
    true
}

/// Messages, records and words.
pub type Traffic = (u64, u64, u64);

pub fn traffic(journal: &[Event]) -> Traffic {
    let (mut messages, mut records, mut words) = (0, 0, 0);
    for e in journal {
        match e.kind {
            FETCH => {
                messages += 2 * u64::from(e.writers);
                records += u64::from(e.value);
                words += u64::from(e.words);
            }
            ACQUIRE | AWAIT => messages += 2,
            ARRIVE | DEPART => messages += 1,
            _ => {}
        }
    }
    (messages, records, words)
}

pub fn measure(work: &str, events: usize, times: usize) {
    let journal = build(events);
    for last in (0..times).rev() {
        let journal = black_box(&journal);
        let answer = match work {
            "append" => build(events).len().to_string(),
            "first_race" => first_race::<PROCESSORS>(journal, PROCESSORS).map_or("none".to_string(), |(a, b)| format!("{a} {b}")),
            "replay" => replays(journal).to_string(),
            "traffic" => {
                let (messages, records, words) = traffic(journal);
                format!("{messages} {records} {words}")
            }
            "copy" => black_box(journal.clone()).len().to_string(),
            _ => journal.len().to_string(),
        };
        if last == 0 {
            println!("{answer}");
        }
    }
}
