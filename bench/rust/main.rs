//! A plain Rust program of the same rules, to measure the product beside. It is no part of the product, nothing is
//! proved of it, and it has no tests beyond the answers that it prints.
//!
//! `plain WORK TIMES [THREADS|FILE]` and `plain WORK EVENTS TIMES` take the words of `bench`.
//! `plain whole FILE [--journal]` does what `lrc step FILE [--journal]` does, and prints the same.
//! `plain check FILE` judges a trace as `lrc check FILE --lax` does, and prints the same if it is faithful and has no race.
//! `plain explore FILE [MOST [all]]` searches all schedules as `lrc explore` does, by the words alone or with all replies, and prints the
//! verdict and how many states and outcomes there are.
//! It uses std alone, events of 16 bytes (of 32 with `--cfg wide`), and one Mutex round what the processors share, which look for what they wait for
//! again and again. `run_in_order` has a lock in the Mutex's place that lets threads in by the order of drawing, and whose
//! waiters sleep, as the product's do. `run_asleep` has that lock, and its processors sleep until they are told.

mod book;
mod check;
mod explore;
mod journal;
mod locks;
mod run;
mod script;

use std::process::exit;

fn number(words: &[String], at: usize) -> usize {
    words.get(at).and_then(|word| word.parse().ok()).unwrap_or(1)
}

fn main() {
    let words: Vec<String> = std::env::args().collect();
    let work = words.get(1).map_or("", String::as_str);
    let times = number(&words, 2);
    let many = number(&words, 3);
    match work {
        "tickets" => println!("{}", locks::count::<locks::Tickets>(many, times)),
        "row" => println!("{}", locks::count::<locks::Row>(many, times)),
        "blank" | "load" | "store" => println!("{}", book::accesses(work, times)),
        "grant" => println!("{}", book::grants(times)),
        "hand_over" => println!("{}", book::hand_over(many, times)),
        "barrier" => println!("{}", book::barrier(many, times)),
        "fetch" => println!("{}", book::fetches(times)),
        "parse" => println!("{}", script::parses(words.get(3).map_or("", String::as_str), times)),
        "step" | "run" | "run_in_order" | "run_asleep" => println!("{}", run::runs(work, words.get(3).map_or("", String::as_str), times)),
        "check" => check::check(words.get(2).map_or("", String::as_str)),
        "explore" => explore::explore(
            words.get(2).map_or("", String::as_str),
            words.get(3).and_then(|most| most.parse().ok()).unwrap_or(1_000_000),
            words.get(4).is_some_and(|detail| detail == "all"),
        ),
        "whole" => run::whole(words.get(2).map_or("", String::as_str), words.len() > 3),
        "build" | "append" | "first_race" | "replay" | "traffic" | "copy" => journal::measure(work, times, many),
        _ => {
            eprintln!("usage: plain WORK TIMES [THREADS|FILE]");
            exit(5);
        }
    }
}
