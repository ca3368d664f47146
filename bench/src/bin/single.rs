//! The calls that callgrind counts one by one, for a pool of N records with the largest K, W, R and B:
//!
//!     single steps N      each event and each phase at its longest, through the inner call
//!     single checked N    each phase, through the checked call
//!     single check N      the check, on a quiet pool, on a half changed one and on a full one
//!
//! It prints one name for each call that is counted, in order. Nothing else calls what is counted.

use bench::check;
use bench::situation::{self, all_changed, Situation, Written};
use std::env;
use std::process::exit;
use yuyarisun::{Answer, Event, Lent, Pool, Sizes};

/// Each situation's event, and that the pool is sound before and behind it.
fn steps(situations: Vec<Situation>, done: impl Fn(Lent, Event) -> (Lent, Answer)) {
    for Situation { name, pool, event } in situations {
        assert!(check::sound(&pool), "{name}: the pool is not sound");
        let (after, answer) = done(pool.clone(), event);
        assert!(answer.is_ok(), "{name}: {answer:?}");
        assert!(after != pool, "{name}: nothing changed");
        assert!(check::sound(&after), "{name}: the pool is no longer sound");
        println!("{name}");
    }
}

/// An event on a pool of its own, which does not look through the tables again.
fn inner(Lent { sizes, tables, collector }: Lent, event: Event) -> (Lent, Answer) {
    let mut pool = Pool::from_tables(sizes, tables, collector).expect("a sound pool");
    let answer = pool.event(event);
    let (tables, collector) = pool.into_tables();
    (Lent { sizes, tables, collector }, answer)
}

fn checked(mut pool: Lent, event: Event) -> (Lent, Answer) {
    let answer = pool.event(event);
    (pool, answer)
}

fn check(sizes: Sizes) {
    let pools = [
        ("check, no entry", situation::quiet(sizes)),
        ("check, every second link in a log", situation::half_changed(sizes)),
        ("check, every link in the history and in a log", all_changed(sizes, 0, Written::Last)),
    ];
    for (name, pool) in pools {
        assert!(check::sound(&pool) && pool.is_sound(), "{name}: the pool is not sound");
        println!("{name}");
    }
}

fn main() {
    let words: Vec<String> = env::args().collect();
    let n = words.get(2).and_then(|n| n.parse().ok());
    let (Some(mode), Some(n)) = (words.get(1), n) else {
        eprintln!("usage: single steps|checked|check N");
        exit(2);
    };
    let sizes = Sizes { n, k: 8, w: 8, r: 16, b: 16 };
    match mode.as_str() {
        "steps" => steps(situation::all(sizes), inner),
        "checked" => steps(situation::collects(sizes), checked),
        _ => check(sizes),
    }
}
