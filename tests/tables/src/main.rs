//! The library held against the second program, event by event and every table entry.
//!
//!     tables SEED             every part, with fixed seeds and with seeds from SEED on
//!     tables SEED counts      the same, and how often each thing was reached
//!     tables PART SEED        one case of one part alone
//!
//! - `lie`      how a pool lies in the tables, both ways
//! - `words`    marks packed into words, and taken out of them
//! - `ends`     what comes at the ends of words
//! - `both`     one event on the second program, by a checked call and by the inner event
//! - `room`     the slice that a caller lends for the answers of many events
//! - `reached`  what was reached
//!
//! The parts
//! - `runs`     runs from a fresh pool, up to the largest sizes
//! - `made`     sound pools that no run reaches
//! - `ways`     pools that break one clause of "A sound pool" alone: answered 2
//! - `touched`  pools with a number replaced blindly: answered as the second program finds them
//! - `wrong`    wrong sizes and wrong lengths: answered 1
//! - `many`     many events at once, on sound pools
//! - `traces`   whole traces

#![forbid(unsafe_code)]

mod both;
mod ends;
mod lie;
mod made;
mod many;
mod reached;
mod room;
mod runs;
mod touched;
mod traces;
mod ways;
mod words;
mod wrong;

use std::time::Instant;
use std::{env, process};

use both::{FREED, FULL_HISTORY, FULL_LOG, GOES_ON_AT_0};
use reached::{Reached, AT_THE_LARGEST};

struct Part {
    name: &'static str,
    words: &'static str,
    /// How many cases from the fixed seeds, and as many from the fresh one.
    cases: u64,
    run: fn(u64, &mut Reached) -> Result<(), String>,
    /// Whether each kind of event has to have come in each phase with each of its numbers, a make
    /// upon each of `MAKES`, a step of phase 6 upon each of `RECLAIMS`, and each of `WRONGS`.
    every_event: bool,
    situations: fn() -> Vec<String>,
}

fn and(list: &[&str], others: Vec<String>) -> Vec<String> {
    list.iter().map(|words| (*words).into()).chain(others).collect()
}

const PARTS: [Part; 7] = [
    Part {
        name: "runs",
        words: "runs from a fresh pool",
        cases: 1000,
        run: run_or_full,
        every_event: true,
        situations: || and(&[FREED, FULL_LOG, FULL_HISTORY, AT_THE_LARGEST], ends::sizes()),
    },
    Part {
        name: "made",
        words: "sound pools that no run reaches",
        cases: 4000,
        run: made::run,
        every_event: true,
        situations: || {
            let others = [FREED, GOES_ON_AT_0, FULL_LOG, FULL_HISTORY, made::SHARED, AT_THE_LARGEST];
            and(&others, ends::all_words())
        },
    },
    Part {
        name: "ways",
        words: "pools that break one clause alone",
        cases: 100 * ways::WAYS.len() as u64,
        run: ways::run,
        every_event: false,
        situations: ways::all_words,
    },
    Part {
        name: "touched",
        words: "pools with a number replaced blindly",
        cases: 10_000,
        run: touched::run,
        every_event: false,
        situations: || and(&[touched::STILL_SOUND, touched::NOT_SOUND, AT_THE_LARGEST], ends::sizes()),
    },
    Part {
        name: "wrong",
        words: "wrong sizes and wrong lengths",
        cases: 3000,
        run: wrong::run,
        every_event: false,
        situations: wrong::all_words,
    },
    Part {
        name: "many",
        words: "many events at once",
        cases: 25_000,
        run: many::run,
        every_event: true,
        situations: many::all_words,
    },
    Part {
        name: "traces",
        words: "whole traces",
        cases: 8000,
        run: traces::run,
        every_event: true,
        situations: traces::all_words,
    },
];

/// Seed 0 is the run that fills every list, at the largest sizes.
fn run_or_full(seed: u64, reached: &mut Reached) -> Result<(), String> {
    match seed {
        0 => runs::full(runs::LARGEST, seed, reached),
        _ => runs::run(seed, reached),
    }
}

fn fail(told: String) -> ! {
    println!("{told}");
    process::exit(1);
}

fn case(part: &Part, seed: u64, reached: &mut Reached) {
    if let Err(told) = (part.run)(seed, reached) {
        println!("run it alone: rust/target/release/tables {} {seed}", part.name);
        fail(format!("{}, seed {seed}: {told}", part.words));
    }
    reached.cases += 1;
}

fn all(fresh: u64, counts: bool) {
    if let Err(told) = wrong::limits() {
        fail(format!("a fresh pool at the ends of the ranges: {told}"));
    }
    let mut faults = Vec::new();
    for part in &PARTS {
        let begun = Instant::now();
        let mut reached = Reached::default();
        for i in 0..part.cases {
            case(part, i, &mut reached);
            case(part, fresh.wrapping_add(i), &mut reached);
        }
        let (cases, calls) = (reached.cases, reached.calls());
        println!("{}: {cases} cases, {calls} events compared, {} s", part.words, begun.elapsed().as_secs());
        if counts {
            reached.print();
        }
        let found = reached.faults(part.every_event, &(part.situations)());
        faults.extend(found.into_iter().map(|fault| format!("{}: {fault}", part.words)));
    }
    if !faults.is_empty() {
        fail(faults.join("\n"));
    }
}

fn usage() -> ! {
    eprintln!("usage: tables SEED [counts], or tables PART SEED");
    eprintln!("PART is one of runs, made, ways, touched, wrong, many, traces");
    process::exit(2);
}

fn seed_of(word: &str) -> u64 {
    word.parse().unwrap_or_else(|_| usage())
}

fn main() {
    let words: Vec<String> = env::args().skip(1).collect();
    let words: Vec<&str> = words.iter().map(String::as_str).collect();
    match words[..] {
        [seed] => all(seed_of(seed), false),
        [seed, "counts"] => all(seed_of(seed), true),
        [name, seed] => {
            let part = PARTS.iter().find(|part| part.name == name).unwrap_or_else(|| usage());
            case(part, seed_of(seed), &mut Reached::default());
            println!("the library and the second program agree, {}, seed {seed}", part.words);
        }
        _ => usage(),
    }
}
