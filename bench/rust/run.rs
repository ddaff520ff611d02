//! Runs of scripts: by turns on one thread, or each processor on a thread of its own; and the text of a report.

use crate::book::{ACQUIRE, ARRIVE, ASK, AWAIT, DEPART, FETCH, LOAD, RELEASE, SET, STORE, WATCH};
use crate::book::{Cluster, Event, Processor, Refused, Waiting};
use crate::journal::{Traffic, first_race, traffic};
use crate::script::{Instruction, Script, parse};
use std::fs;
use std::hint::spin_loop;
use std::io::{self, Write};
use std::thread;

pub struct Report {
    shown: Vec<(u32, u32)>,
    racy: bool,
    traffic: Traffic,
    journal: Vec<Event>,
}

/// Cuts stand in no script that is measured.
const UNKNOWN: &str = "an instruction that this program doesn't know";

#[derive(Clone, Copy, PartialEq)]
enum Progress {
    Next(usize),
    Waits(usize),
    Passed,
}

fn load_roomy(cluster: &Cluster, m: &mut Processor, address: usize) -> Result<u32, Refused> {
    match m.load(address) {
        Err(Refused::BlockFull) => {
            cluster.flush(m)?;
            m.load(address)
        }
        answer => answer,
    }
}

fn store_roomy(cluster: &Cluster, m: &mut Processor, address: usize, word: u32) -> Result<(), Refused> {
    match m.store(address, word) {
        Err(Refused::BlockFull) => {
            cluster.flush(m)?;
            m.store(address, word)
        }
        answer => answer,
    }
}

fn fetch(cluster: &Cluster, m: &mut Processor, address: usize) -> Result<(), Refused> {
    let page = m.page_of(address);
    match m.fetch(page) {
        Err(Refused::BlockFull) => {
            cluster.flush(m)?;
            m.fetch(page)
        }
        answer => answer,
    }
}

fn load(cluster: &Cluster, m: &mut Processor, address: usize) -> Result<u32, Refused> {
    match load_roomy(cluster, m, address) {
        Err(Refused::Invalid) => {
            fetch(cluster, m, address)?;
            load_roomy(cluster, m, address)
        }
        answer => answer,
    }
}

fn store(cluster: &Cluster, m: &mut Processor, address: usize, word: u32) -> Result<(), Refused> {
    match store_roomy(cluster, m, address, word) {
        Err(Refused::Invalid) => {
            fetch(cluster, m, address)?;
            store_roomy(cluster, m, address, word)
        }
        answer => answer,
    }
}

/// Does the instruction, or begins it: whether it is done.
fn begin(cluster: &Cluster, m: &mut Processor, instruction: Instruction) -> Result<bool, Refused> {
    match instruction {
        Instruction::Load(address) => load(cluster, m, address as usize).map(|_| true),
        Instruction::Store(address, word) => store(cluster, m, address as usize, word).map(|()| true),
        Instruction::Add(address, word) => {
            let reply = load(cluster, m, address as usize)?;
            store(cluster, m, address as usize, reply.wrapping_add(word)).map(|()| true)
        }
        Instruction::Acquire(lock) => cluster.ask(m, lock as usize).map(|()| false),
        Instruction::Release(lock) => cluster.release(m, lock as usize).map(|()| true),
        Instruction::Barrier => cluster.arrive(m).map(|()| false),
        Instruction::Set(flag) => cluster.set(m, flag as usize).map(|()| true),
        Instruction::Await(flag) => cluster.watch(m, flag as usize).map(|()| false),
        Instruction::Cut => panic!("{UNKNOWN}"),
    }
}

fn end(cluster: &Cluster, m: &mut Processor) -> Result<bool, Refused> {
    match cluster.take(m) {
        Ok(()) => Ok(true),
        Err(Refused::NotYet) => Ok(false),
        Err(refused) => Err(refused),
    }
}

/// A turn: where the processor is after it, and whether it got on.
fn take_turn(
    cluster: &Cluster,
    m: &mut Processor,
    section: &[Instruction],
    progress: Progress,
) -> Result<(Progress, bool), Refused> {
    let (n, done, moved) = match progress {
        Progress::Next(n) => {
            let instruction = section.get(n).copied().unwrap_or(Instruction::Barrier);
            (n, begin(cluster, m, instruction)? || end(cluster, m)?, true)
        }
        Progress::Waits(n) => {
            let done = end(cluster, m)?;
            (n, done, done)
        }
        Progress::Passed => return Ok((Progress::Passed, false)),
    };
    let after = match (done, n < section.len()) {
        (false, _) => Progress::Waits(n),
        (true, true) => Progress::Next(n + 1),
        (true, false) => Progress::Passed,
    };
    Ok((after, moved))
}

fn conclude(cluster: Cluster, mut all: Vec<Processor>, script: &Script) -> Result<Report, Refused> {
    let mut shown = Vec::with_capacity(script.shown.len());
    for address in &script.shown {
        shown.push((*address, load(&cluster, &mut all[0], *address as usize)?));
    }
    let journal = cluster.finish(all);
    let racy = first_race::<16>(&journal, script.sizes.processors as usize).is_some();
    let traffic = traffic(&journal);
    Ok(Report { shown, racy, traffic, journal })
}

fn new_cluster(script: &Script, waiting: Waiting) -> (Cluster, Vec<Processor>) {
    let sizes = &script.sizes;
    let (processors, pages, words) = (sizes.processors as usize, sizes.pages as usize, sizes.words as usize);
    Cluster::with(processors, pages, words, sizes.locks as usize, sizes.flags as usize, waiting)
}

/// All processors by turns on one thread, in the order of their numbers.
pub fn step(script: &Script) -> Result<Report, Refused> {
    let (cluster, mut processors) = new_cluster(script, Waiting::ByMutex);
    let mut all = vec![Progress::Next(0); processors.len()];
    while all.iter().any(|progress| *progress != Progress::Passed) {
        let mut any = false;
        for ((m, progress), section) in processors.iter_mut().zip(&mut all).zip(&script.sections) {
            let (after, moved) = take_turn(&cluster, m, section, *progress)?;
            *progress = after;
            any |= moved;
        }
        assert!(any, "no progress");
    }
    conclude(cluster, processors, script)
}

/// Gives way between two looks, by pauses that grow, and then by yields.
fn give_way(looks: &mut u32) {
    if *looks <= 6 {
        (0..1 << *looks).for_each(|_| spin_loop());
        *looks += 1;
    } else {
        thread::yield_now();
    }
}

/// Does the instruction to its end. Until it can end, the thread sleeps, or gives way where nobody tells its processor.
fn perform(cluster: &Cluster, m: &mut Processor, instruction: Instruction) -> Result<(), Refused> {
    if begin(cluster, m, instruction)? {
        return Ok(());
    }
    let mut looks = 0;
    cluster.wait(m);
    while !end(cluster, m)? {
        if !cluster.wait(m) {
            give_way(&mut looks);
        }
    }
    Ok(())
}

fn walk(cluster: &Cluster, m: &mut Processor, section: &[Instruction]) -> Result<(), Refused> {
    for instruction in section {
        perform(cluster, m, *instruction)?;
    }
    perform(cluster, m, Instruction::Barrier)
}

/// Each processor on a thread of its own.
pub fn run(script: &Script, waiting: Waiting) -> Result<Report, Refused> {
    let (cluster, mut processors) = new_cluster(script, waiting);
    let shared = &cluster;
    thread::scope(|scope| {
        let started: Vec<_> = processors
            .iter_mut()
            .zip(&script.sections)
            .map(|(m, section)| scope.spawn(move || walk(shared, m, section)))
            .collect();
        started.into_iter().try_for_each(|thread| thread.join().expect("no thread panics"))
    })?;
    conclude(cluster, processors, script)
}

/// The two digits of each number below 100.
const PAIRS: [[u8; 2]; 100] = {
    let mut pairs = [[0; 2]; 100];
    let mut number = 0;
    while number < 100 {
        pairs[number] = [b'0' + number as u8 / 10, b'0' + number as u8 % 10];
        number += 1;
    }
    pairs
};

/// A line, made from its end, so that digits stand where they come.
struct Line {
    bytes: [u8; 128],
    first: usize,
}

impl Line {
    #[inline(always)]
    fn text<const N: usize>(&mut self, text: &[u8; N]) {
        self.first -= N;
        if let Some(place) = self.bytes[self.first..].first_chunk_mut() {
            *place = *text;
        }
    }

    #[inline(always)]
    fn number(&mut self, mut number: u32) {
        while number >= 100 {
            self.text(&PAIRS[number as usize % 100]);
            number /= 100;
        }
        if number >= 10 {
            self.text(&PAIRS[number as usize]);
        } else {
            self.text(&[b'0' + number as u8]);
        }
        self.text(b" ");
    }
}

/// Text that is written some thousand bytes at a time.
struct Pending<W> {
    out: W,
    bytes: Vec<u8>,
    line: Line,
}

impl<W: Write> Pending<W> {
    fn text(&mut self, text: &[u8]) -> io::Result<()> {
        if self.bytes.len() + text.len() > 8192 {
            self.out.write_all(&self.bytes)?;
            self.bytes.clear();
        }
        self.bytes.extend_from_slice(text);
        Ok(())
    }

    fn event(&mut self, place: usize, e: &Event) -> io::Result<()> {
        let line = &mut self.line;
        line.first = 128;
        line.text(b"\n");
        match e.kind {
            LOAD | STORE => {
                line.number(e.value);
                line.number(e.place);
                if e.kind == LOAD { line.text(b" load") } else { line.text(b" store") }
            }
            FETCH => {
                line.number(e.words);
                line.number(e.value);
                line.number(u32::from(e.writers));
                line.number(e.place);
                line.text(b" fetch");
            }
            ASK | ACQUIRE | RELEASE | SET | WATCH | AWAIT => {
                line.number(e.place);
                match e.kind {
                    ASK => line.text(b" ask"),
                    ACQUIRE => line.text(b" acquire"),
                    RELEASE => line.text(b" release"),
                    SET => line.text(b" set"),
                    WATCH => line.text(b" watch"),
                    _ => line.text(b" await"),
                }
            }
            ARRIVE => line.text(b" arrive"),
            DEPART => line.text(b" depart"),
            _ => panic!("{UNKNOWN}"),
        }
        line.number(u32::from(e.processor));
        line.number(place as u32);
        line.text(b"event");
        let text = &line.bytes[line.first..];
        if self.bytes.len() + text.len() > 8192 {
            self.out.write_all(&self.bytes)?;
            self.bytes.clear();
        }
        self.bytes.extend_from_slice(text);
        Ok(())
    }
}

/// Writes the report, with its events where they are asked for.
fn render(report: &Report, journal: bool, out: impl Write) -> io::Result<()> {
    let line = Line { bytes: [0; 128], first: 128 };
    let mut pending = Pending { out, bytes: Vec::with_capacity(8192), line };
    for (address, word) in &report.shown {
        pending.text(format!("word {address} {word}\n").as_bytes())?;
    }
    pending.text(if report.racy { b"verdict racy\n" } else { b"verdict race-free\n" })?;
    let (messages, records, words) = report.traffic;
    pending.text(format!("traffic {messages} {records} {words}\n").as_bytes())?;
    if journal {
        for (place, e) in report.journal.iter().enumerate() {
            pending.event(place, e)?;
        }
    }
    pending.out.write_all(&pending.bytes)
}

/// Runs the script of the file so many times: how many events there were, or how many addresses were shown.
pub fn runs(work: &str, file: &str, times: usize) -> usize {
    let bytes = fs::read(file).expect("the file");
    let script = parse(&bytes).expect("a script");
    let mut count = 0;
    for _ in 0..times {
        count = match work {
            "step" => step(&script).expect("a report").journal.len(),
            "run_in_order" => run(&script, Waiting::InOrder).expect("a report").shown.len(),
            "run_asleep" => run(&script, Waiting::Asleep).expect("a report").shown.len(),
            _ => run(&script, Waiting::ByMutex).expect("a report").shown.len(),
        };
    }
    count
}

/// What the product's whole program does: reads the script of the file, runs it by turns and prints the report.
pub fn whole(file: &str, journal: bool) {
    let bytes = fs::read(file).expect("the file");
    let script = parse(&bytes).expect("a script");
    let report = step(&script).expect("a report");
    // Not through the standard library's own buffer, which looks for line feeds.
    let out = unsafe { <fs::File as std::os::fd::FromRawFd>::from_raw_fd(1) };
    render(&report, journal, &out).expect("standard output");
    std::mem::forget(out);
}
