//! A search of all schedules of a script on one flat memory, as `lrc explore` makes it: breadth first, each state once. An event
//! that commutes with all that others may do is followed alone, and up to 15 of these behind another event in one go; else the asks
//! for free locks of the processors that are closed under who lets whom go on; else those for one lock, if nobody may do anything but ask for
//! held ones; or all events. It ends as soon as two accesses that may both come next conflict, or more states are found than were asked for.
//!
//! A word is guarded here if there is a lock under which all that access it do so, in each phase between barriers in which several
//! access it and one stores. What flags order isn't looked for.

use crate::script::{Instruction, Script, parse};
use std::collections::HashMap;
use std::collections::hash_map::Entry;
use std::fs;
use std::hash::{BuildHasherDefault, Hash, Hasher};

/// A call of a section. What is added is stored by the second of two calls.
#[derive(Clone, Copy)]
enum Call {
    Load(u32),
    Store(u32, u32),
    StoreSum(u32, u32),
    Ask(u8),
    Acquire(u8),
    Release(u8),
    Arrive,
    Depart,
    Set(u8),
    Watch,
    Await(u8),
}

/// What the processors have done, the words, and who waits for a lock, in the order of their asks. What they hold, have set and how
/// often they have arrived follows from what they have done, so it is no part of what is compared.
#[derive(Clone)]
struct State {
    done: [u16; 16],
    arrivals: [u16; 16],
    holders: [u8; 32],
    flags: u32,
    asked: Vec<u8>,
    words: Vec<u32>,
    replies: Vec<Vec<u32>>,
}

impl State {
    fn is_same(&self, other: &State) -> bool {
        self.done == other.done && self.words == other.words && self.replies == other.replies && self.asked == other.asked
    }

    fn hash(&self) -> u64 {
        let mut turning = Turning::default();
        self.done.hash(&mut turning);
        self.asked.hash(&mut turning);
        self.words.hash(&mut turning);
        self.replies.hash(&mut turning);
        turning.finish()
    }
}

const NOBODY: u8 = 255;

/// How many events are made behind another one without a look at the state between.
const MOST_BEHIND: usize = 15;

/// Multiplies and turns, as the compiler's own tables do.
#[derive(Default)]
struct Turning(u64);

impl Turning {
    fn add(&mut self, word: u64) {
        self.0 = (self.0.rotate_left(5) ^ word).wrapping_mul(0x51_7c_c1_b7_27_22_0a_95);
    }
}

impl Hasher for Turning {
    fn write(&mut self, bytes: &[u8]) {
        let mut parts = bytes.chunks_exact(8);
        for part in &mut parts {
            self.add(u64::from_le_bytes(part.try_into().expect("eight bytes")));
        }
        let mut last = [0; 8];
        last[..parts.remainder().len()].copy_from_slice(parts.remainder());
        self.add(u64::from_le_bytes(last));
    }

    fn write_usize(&mut self, word: usize) {
        self.add(word as u64);
    }

    fn finish(&self) -> u64 {
        self.0
    }
}

/// The states that were found: each by its hash, in a chain of those that share it, with the state it came from and who made the
/// events between.
struct Found {
    states: Vec<State>,
    origins: Vec<(u32, u32)>,
    makers: Vec<u8>,
    first: HashMap<u64, u32, BuildHasherDefault<Turning>>,
    next: Vec<u32>,
}

const LAST: u32 = u32::MAX;

impl Found {
    fn add(&mut self, state: State, from: usize, makers: &[u8]) {
        let place = self.states.len() as u32;
        let next = match self.first.entry(state.hash()) {
            Entry::Vacant(entry) => {
                entry.insert(place);
                LAST
            }
            Entry::Occupied(mut entry) => {
                let mut at = *entry.get();
                while at != LAST {
                    if self.states[at as usize].is_same(&state) {
                        return;
                    }
                    at = self.next[at as usize];
                }
                entry.insert(place)
            }
        };
        self.states.push(state);
        self.next.push(next);
        self.makers.extend_from_slice(makers);
        self.origins.push((from as u32, self.makers.len() as u32));
    }
}

fn calls_of(script: &Script, processor: usize) -> Vec<Call> {
    let mut calls = Vec::new();
    for instruction in &script.sections[processor] {
        match *instruction {
            Instruction::Load(a) => calls.push(Call::Load(a)),
            Instruction::Store(a, v) => calls.push(Call::Store(a, v)),
            Instruction::Add(a, v) => calls.extend([Call::Load(a), Call::StoreSum(a, v)]),
            Instruction::Acquire(l) => calls.extend([Call::Ask(l as u8), Call::Acquire(l as u8)]),
            Instruction::Release(l) => calls.push(Call::Release(l as u8)),
            Instruction::Barrier => calls.extend([Call::Arrive, Call::Depart]),
            Instruction::Set(f) => calls.push(Call::Set(f as u8)),
            Instruction::Await(f) => calls.extend([Call::Watch, Call::Await(f as u8)]),
            Instruction::Cut => {}
        }
    }
    calls.extend([Call::Arrive, Call::Depart]);
    if processor == 0 {
        calls.extend(script.shown.iter().map(|a| Call::Load(*a)));
    }
    calls
}

/// The address that the call accesses, and whether it stores there.
fn access(call: Call) -> Option<(u32, bool)> {
    match call {
        Call::Load(a) => Some((a, false)),
        Call::Store(a, _) | Call::StoreSum(a, _) => Some((a, true)),
        _ => None,
    }
}

/// What the text shows of the calls to come.
struct Text {
    calls: Vec<Vec<Call>>,
    guarded: Vec<bool>,
    /// Behind how many of its calls a processor asks for a lock no more, and sets a flag no more.
    asks: Vec<[u16; 32]>,
    sets: Vec<[u16; 32]>,
    /// Whether replies are told.
    replies: bool,
}

/// Of each word whether it is guarded.
fn guarded_words(calls: &[Vec<Call>], words: usize) -> Vec<bool> {
    let mut users: HashMap<(u32, usize), (usize, bool, bool, u32)> = HashMap::new();
    for (p, calls) in calls.iter().enumerate() {
        let (mut held, mut phase) = (0_u32, 0);
        for call in calls {
            match *call {
                Call::Acquire(l) => held |= 1 << l,
                Call::Release(l) => held &= !(1 << l),
                Call::Depart => phase += 1,
                _ => {}
            }
            if let Some((a, stores)) = access(*call) {
                let user = users.entry((a, phase)).or_insert((p, false, false, u32::MAX));
                user.1 |= user.0 != p;
                user.2 |= stores;
                user.3 &= held;
            }
        }
    }
    let mut guarded = vec![true; words];
    for ((a, _), (_, several, stored, common)) in users {
        guarded[a as usize] &= !several || !stored || common != 0;
    }
    guarded
}

impl Text {
    fn new(script: &Script, replies: bool) -> Text {
        let calls: Vec<_> = (0..script.sections.len()).map(|p| calls_of(script, p)).collect();
        let guarded = guarded_words(&calls, (script.sizes.pages * script.sizes.words) as usize);
        let (mut asks, mut sets) = (vec![[0; 32]; calls.len()], vec![[0; 32]; calls.len()]);
        for (p, calls) in calls.iter().enumerate() {
            for (place, call) in calls.iter().enumerate() {
                match *call {
                    Call::Ask(l) => asks[p][usize::from(l)] = place as u16 + 1,
                    Call::Set(f) => sets[p][usize::from(f)] = place as u16 + 1,
                    _ => {}
                }
            }
        }
        Text { calls, guarded, asks, sets, replies }
    }

    fn is_free(&self, call: Call) -> bool {
        match call {
            Call::Ask(_) => false,
            Call::Load(a) | Call::Store(a, _) | Call::StoreSum(a, _) => self.guarded[a as usize],
            _ => true,
        }
    }
}

impl State {
    /// The call that the processor may make.
    fn next(&self, text: &Text, p: usize) -> Option<Call> {
        let call = *text.calls[p].get(usize::from(self.done[p]))?;
        let may = match call {
            Call::Acquire(l) => {
                let waits = |q: &&u8| matches!(text.calls[usize::from(**q)][usize::from(self.done[usize::from(**q)])], Call::Acquire(m) if m == l);
                self.holders[usize::from(l)] == NOBODY && self.asked.iter().find(waits) == Some(&(p as u8))
            }
            Call::Depart => (0..text.calls.len()).all(|q| self.arrivals[q] >= self.arrivals[p]),
            Call::Await(f) => self.flags >> f & 1 == 1,
            _ => true,
        };
        may.then_some(call)
    }

    fn step(&mut self, text: &Text, p: usize, call: Call) {
        match call {
            Call::Load(a) => {
                let is_sum = matches!(text.calls[p].get(usize::from(self.done[p]) + 1), Some(Call::StoreSum(..)));
                if text.replies || is_sum {
                    self.replies[p].push(self.words[a as usize]);
                }
            }
            Call::Store(a, v) => self.words[a as usize] = v,
            Call::StoreSum(a, v) => {
                self.words[a as usize] = self.replies[p].last().expect("a reply").wrapping_add(v);
                if !text.replies {
                    self.replies[p].pop();
                }
            }
            Call::Ask(_) => self.asked.push(p as u8),
            Call::Acquire(l) => {
                self.asked.retain(|q| usize::from(*q) != p);
                self.holders[usize::from(l)] = p as u8;
            }
            Call::Release(l) => self.holders[usize::from(l)] = NOBODY,
            Call::Arrive => self.arrivals[p] += 1,
            Call::Set(f) => self.flags |= 1 << f,
            Call::Depart | Call::Watch | Call::Await(_) => {}
        }
        self.done[p] += 1;
    }

    /// Makes free events, as long as there are any.
    fn run(&mut self, text: &Text, makers: &mut Vec<u8>) {
        for _ in 0..MOST_BEHIND {
            let free = (0..text.calls.len()).find_map(|p| self.next(text, p).filter(|call| text.is_free(*call)).map(|call| (p, call)));
            let Some((p, call)) = free else { return };
            self.step(text, p, call);
            makers.push(p as u8);
        }
    }

    /// The processors that a set has to have beside this one.
    fn needed(&self, text: &Text, members: u16, p: usize) -> Option<u16> {
        let all_before = |ends: &[[u16; 32]], n: u8| {
            (0..text.calls.len()).filter(|q| self.done[*q] < ends[*q][usize::from(n)]).fold(0, |set, q| set | 1 << q)
        };
        match text.calls[p].get(usize::from(self.done[p])) {
            None => Some(0),
            Some(Call::Ask(l) | Call::Acquire(l)) => Some(match self.holders[usize::from(*l)] {
                NOBODY => all_before(&text.asks, *l),
                holder => 1 << holder,
            }),
            Some(Call::Depart) => {
                let late = (0..text.calls.len()).filter(|q| self.arrivals[*q] < self.arrivals[p]).fold(0_u16, |set, q| set | 1 << q);
                Some(if late & members != 0 { 0 } else { late & late.wrapping_neg() })
            }
            Some(Call::Await(f)) => Some(all_before(&text.sets, *f)),
            Some(_) => None,
        }
    }

    /// The asks for free locks of the least set that has the processor.
    fn asks_of(&self, text: &Text, nexts: &[Option<Call>], p: usize) -> Option<u16> {
        let (mut members, mut settled) = (1_u16 << p, 0_u16);
        while members != settled {
            let q = (members & !settled).trailing_zeros() as usize;
            settled |= 1 << q;
            members |= self.needed(text, members, q)?;
        }
        let asks = |q: &usize| members >> q & 1 == 1 && matches!(nexts[*q], Some(Call::Ask(l)) if self.holders[usize::from(l)] == NOBODY);
        Some((0..nexts.len()).filter(asks).fold(0, |set, q| set | 1 << q))
    }

    /// Whose next events are followed.
    fn chosen(&self, text: &Text, nexts: &[Option<Call>]) -> u16 {
        if let Some(p) = nexts.iter().position(|next| next.is_some_and(|call| text.is_free(call))) {
            return 1 << p;
        }
        let mut best = None;
        let mut tried = 0_u32;
        for (p, next) in nexts.iter().enumerate() {
            if let Some(Call::Ask(l)) = *next
                && self.holders[usize::from(l)] == NOBODY
                && tried >> l & 1 == 0
            {
                tried |= 1 << l;
                if let Some(asks) = self.asks_of(text, nexts, p)
                    && best.is_none_or(|best: u16| asks.count_ones() < best.count_ones())
                {
                    best = Some(asks);
                }
            }
        }
        best.unwrap_or_else(|| {
            let first = nexts.iter().flatten().next();
            let is_hopeless = nexts.iter().flatten().all(|call| matches!(call, Call::Ask(_)));
            let follows = |p: &usize| match (nexts[*p], first) {
                (Some(Call::Ask(l)), Some(Call::Ask(first))) if is_hopeless => l == *first,
                (next, _) => next.is_some(),
            };
            (0..nexts.len()).filter(follows).fold(0, |set, p| set | 1 << p)
        })
    }
}

fn conflict(nexts: &[Option<Call>]) -> bool {
    let accesses: Vec<_> = nexts.iter().filter_map(|call| call.and_then(access)).collect();
    accesses.iter().enumerate().any(|(at, (a, stores))| {
        accesses[at + 1..].iter().any(|(b, also)| a == b && (*stores || *also))
    })
}

/// Searches the script of the file: prints the verdict, and how many states were found. Replies are told if `replies` says so.
pub fn explore(file: &str, most: usize, replies: bool) {
    let bytes = fs::read(file).expect("the file");
    let script = parse(&bytes).expect("a script");
    let text = Text::new(&script, replies);
    let mut found = Found { states: Vec::new(), origins: Vec::new(), makers: Vec::new(), first: HashMap::default(), next: Vec::new() };
    let first = State {
        done: [0; 16],
        arrivals: [0; 16],
        holders: [NOBODY; 32],
        flags: 0,
        asked: Vec::new(),
        words: vec![0; (script.sizes.pages * script.sizes.words) as usize],
        replies: vec![Vec::new(); text.calls.len()],
    };
    found.add(first, 0, &[]);
    let mut outcomes = std::collections::HashSet::new();
    let mut at = 0;
    let verdict = loop {
        if found.states.len() > most {
            break "undecided";
        }
        if at == found.states.len() {
            break "race-free";
        }
        let nexts: Vec<_> = (0..text.calls.len()).map(|p| found.states[at].next(&text, p)).collect();
        if conflict(&nexts) {
            break "racy";
        }
        if (0..text.calls.len()).all(|p| usize::from(found.states[at].done[p]) == text.calls[p].len()) {
            outcomes.insert((found.states[at].replies.clone(), found.states[at].words.clone()));
        }
        let chosen = found.states[at].chosen(&text, &nexts);
        for (p, next) in nexts.iter().enumerate() {
            if let Some(call) = *next
                && chosen >> p & 1 == 1
            {
                let mut state = found.states[at].clone();
                let mut makers = vec![p as u8];
                state.step(&text, p, call);
                state.run(&text, &mut makers);
                found.add(state, at, &makers);
            }
        }
        at += 1;
    };
    println!("{verdict} {} states {} outcomes", found.states.len(), outcomes.len());
}
