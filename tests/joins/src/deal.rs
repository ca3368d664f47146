//! A whole trace, and its events dealt out to parts.

use second::event::Event;
use second::maker::{at_the_limits, sizes_field, up_to};
use second::pool::Sizes;
use second::random::Random;
use second::trace::{Field, LARGEST, LARGEST_OF_ALL};

/// A field in bytes, and a part as its fields: the sizes, the events, the end.
pub type Bytes = Vec<u8>;
pub type Part = Vec<Bytes>;

/// How events come to parts.
#[derive(Clone, Copy)]
enum Deal {
    /// "Every worker, and the collector, now records its own trace": one part for each.
    ByWorker,
    InTurns,
    InStretches,
    Anyhow,
    AllInOne,
}

const DEALS: [Deal; 5] = [Deal::ByWorker, Deal::InTurns, Deal::InStretches, Deal::Anyhow, Deal::AllInOne];

impl Deal {
    fn words(self) -> &'static str {
        match self {
            Deal::ByWorker => "dealt by worker",
            Deal::InTurns => "dealt in turns",
            Deal::InStretches => "dealt in stretches",
            Deal::Anyhow => "dealt anyhow",
            Deal::AllInOne => "all events in one of the parts",
        }
    }
}

pub fn all_words() -> Vec<String> {
    DEALS.map(|deal| deal.words().into()).into()
}

pub struct Dealt {
    pub trace: Bytes,
    pub sizes: Sizes,
    pub parts: Vec<Part>,
    pub words: &'static str,
}

/// Sizes that a pool may have, those of `replay` and larger ones, some of them without a board.
fn any_sizes(random: &mut Random) -> Sizes {
    let sizes = match random.below(4) {
        0 | 1 => up_to(LARGEST, random),
        2 => up_to(LARGEST_OF_ALL, random),
        _ => at_the_limits(LARGEST_OF_ALL, 80, random),
    };
    match random.percent(30) {
        true => Sizes { b: 0, ..sizes },
        false => sizes,
    }
}

/// An event of a worker of the pool, or of nobody's, with any other numbers; or a collector step.
fn any_event(sizes: Sizes, random: &mut Random) -> Event {
    let w = if random.percent(5) { random.byte() } else { random.below(sizes.w.into()) as u8 };
    let mut number = || if random.percent(5) { random.byte() } else { random.below(3) as u8 };
    let (r, q, f) = (number(), number(), number());
    match random.below(8) {
        0 => Event::Make { w, r },
        1 => Event::Move { w, r, q },
        2 => Event::Drop { w, r },
        3 => Event::Load { w, r, q, f },
        4 => Event::Store { w, q, f, r },
        5 => Event::Look { w, r, e: f },
        6 => Event::Post { w, e: f, r },
        _ => Event::Collect,
    }
}

fn worker(event: &Event) -> Option<u8> {
    event.numbers().first().copied()
}

/// So many events, or a few more or fewer, dealt out to one to nine parts.
pub fn any(events: usize, random: &mut Random) -> Dealt {
    let sizes = any_sizes(random);
    let deal = random.pick(&DEALS);
    let workers = usize::from(sizes.w);
    let count = if let Deal::ByWorker = deal { workers + 1 } else { 1 + random.below(9) };
    let (one, long) = (random.below(count), 1 + random.below(12));
    let mut parts: Vec<Part> = (0..count).map(|_| vec![sizes_field(sizes, random).bytes()]).collect();
    let mut trace = parts[0][0].clone();
    for i in 0..events {
        let event = any_event(sizes, random);
        let to = match deal {
            // What is no worker's of the pool stands in the collector's part.
            Deal::ByWorker => worker(&event).map_or(workers, |w| workers.min(w.into())),
            Deal::InTurns => i % count,
            Deal::InStretches => i / long % count,
            Deal::Anyhow => random.below(count),
            Deal::AllInOne => one,
        };
        let field = Field::Event { step: i as u32 + 1, event }.bytes();
        trace.extend(&field);
        parts[to].push(field);
    }
    for part in &mut parts {
        let count = part.len() as u32 - 1;
        part.push(Field::End { count }.bytes());
    }
    trace.extend(Field::End { count: events as u32 }.bytes());
    Dealt { trace, sizes, parts, words: deal.words() }
}
