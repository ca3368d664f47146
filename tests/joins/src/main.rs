//! The library's joining of parts held against the second program's: each answer, each place and
//! every byte of the output.
//!
//!     joins SEED             hand-made parts, then made ones with fixed seeds and with seeds from SEED on
//!     joins SEED counts      the same, and how often each thing was reached
//!     joins one SEED         the made parts of one seed alone
//!     joins hand FILE        the parts of one file alone
//!
//! - `both`     parts joined by the second program and by the library
//! - `hand`     hand-made parts with what is expected of them
//! - `deal`     a whole trace, dealt out to parts
//! - `harm`     what is done to the parts
//! - `table`    the table of their lengths, and what is done to it
//! - `room`     the slice that is written
//! - `made`     all of it from a seed
//! - `reached`  what was reached

#![forbid(unsafe_code)]

mod both;
mod deal;
mod hand;
mod harm;
mod made;
mod reached;
mod room;
mod table;

use std::path::Path;
use std::time::Instant;
use std::{env, process};

use reached::Reached;

/// How many made parts from the fixed seeds, and as many from the fresh one.
const CASES: u64 = 20_000;
/// As many long traces.
const LONG: u64 = 2;

fn fail(told: String) -> ! {
    println!("{told}");
    process::exit(1);
}

fn made_of(seed: u64, reached: &mut Reached) {
    if let Err(told) = made::run(seed, reached) {
        println!("run it alone: rust/target/release/joins one {seed}");
        fail(format!("made parts, seed {seed}: {told}"));
    }
}

fn hand_made(file: &Path) {
    if let Err(told) = hand::run(file) {
        println!("run it alone: rust/target/release/joins hand {}", file.display());
        fail(format!("{}: {told}", file.display()));
    }
}

fn all(fresh: u64, counts: bool) {
    let files = hand::files().unwrap_or_else(|told| fail(told));
    files.iter().for_each(|file| hand_made(file));
    println!("hand-made parts: {} cases", files.len());

    let begun = Instant::now();
    let mut reached = Reached::default();
    for i in 0..CASES {
        made_of(i, &mut reached);
        made_of(fresh.wrapping_add(i), &mut reached);
    }
    for i in 0..LONG {
        for seed in [i, fresh.wrapping_add(i)] {
            made::long(seed, &mut reached)
                .unwrap_or_else(|told| fail(format!("long parts, seed {seed}: {told}")));
        }
    }
    println!("made parts: {} cases, {} s", 2 * (CASES + LONG), begun.elapsed().as_secs());
    if counts {
        reached.print();
    }
    let never = reached.never(&made::all_words());
    if !never.is_empty() {
        fail(never.join("\n"));
    }
}

fn usage() -> ! {
    eprintln!("usage: joins SEED [counts], joins one SEED, or joins hand FILE");
    process::exit(2);
}

fn seed_of(word: &str) -> u64 {
    word.parse().unwrap_or_else(|_| usage())
}

fn main() {
    let words: Vec<String> = env::args().skip(1).collect();
    let words: Vec<&str> = words.iter().map(String::as_str).collect();
    match words[..] {
        ["one", seed] => made_of(seed_of(seed), &mut Reached::default()),
        ["hand", file] => hand_made(Path::new(file)),
        [seed] => return all(seed_of(seed), false),
        [seed, "counts"] => return all(seed_of(seed), true),
        _ => usage(),
    }
    println!("the library and the second program agree");
}
