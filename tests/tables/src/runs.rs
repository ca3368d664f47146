//! Runs from a fresh pool, up to the largest sizes of document 01.

use second::ends::at_the_end_of_a_word;
use second::event::Event;
use second::maker::{at_the_limits, stretch, up_to};
use second::pool::Sizes;
use second::random::Random;
pub use second::trace::LARGEST_OF_ALL as LARGEST;

use crate::both::Both;
use crate::reached::{Reached, KINDS};

/// Which of the kinds of events is the collector's; the workers' are those before it.
pub const COLLECT: usize = KINDS.len() - 1;

/// Mostly small, for then the same records meet again and again; some in between, some at the ends of
/// words, a few at the limits.
pub fn choose_sizes(random: &mut Random) -> Sizes {
    match random.below(100) {
        0..=53 => up_to(Sizes { n: 4, k: 3, w: 3, r: 3, b: 3 }, random),
        54..=79 => up_to(Sizes { n: 16, k: 8, w: 8, r: 16, b: 16 }, random),
        80..=92 => at_the_end_of_a_word(LARGEST, random),
        93..=97 => up_to(Sizes { n: 160, k: 4, w: 4, r: 8, b: 8 }, random),
        _ => at_the_limits(LARGEST, 75, random),
    }
}

/// An event of each kind with numbers that mostly are there; of those that are not, many are just
/// past the last.
pub fn any_event(kind: usize, sizes: Sizes, random: &mut Random) -> Event {
    let mut below = |size: u16| match random.below(100) {
        0..=3 => size as u8,
        4..=5 => random.byte(),
        _ => random.below(size.into()) as u8,
    };
    let (w, r, q, f) = (below(sizes.w), below(sizes.r), below(sizes.r), below(sizes.k));
    let e = below(sizes.b);
    match kind {
        0 => Event::Make { w, r },
        1 => Event::Move { w, r, q },
        2 => Event::Drop { w, r },
        3 => Event::Load { w, r, q, f },
        4 => Event::Store { w, q, f, r },
        5 => Event::Look { w, r, e },
        6 => Event::Post { w, e, r },
        _ => Event::Collect,
    }
}

/// A whole run, made by the habits of the second program's workers. Now and then comes any event, so that
/// each is refused in each phase.
pub fn run(seed: u64, reached: &mut Reached) -> Result<(), String> {
    let mut random = Random::new(seed);
    let sizes = choose_sizes(&mut random);
    let events = if sizes.s() > 1000 { 800 } else { 200 + random.below(300) };
    let mut both = Both::fresh(sizes)?;
    let mut plans: Vec<Vec<Event>> = vec![Vec::new(); usize::from(sizes.w)];
    let mut done = 0;
    while done < events {
        let (rate, habits) = stretch(&mut random);
        for _ in 0..5 + random.below(40) {
            let w = random.below(plans.len());
            if plans[w].is_empty() {
                plans[w] = random.pick(&habits).plan(&both.second, w as u8, &mut random);
                plans[w].reverse();
            }
            let event = match random.below(100) {
                0..5 => any_event(random.below(COLLECT), sizes, &mut random),
                _ if random.percent(rate) => Event::Collect,
                _ => plans[w].pop().unwrap_or(Event::Collect),
            };
            both.event(event, reached).map_err(|told| format!("{sizes:?}, event {}: {told}", done + 1))?;
            done += 1;
        }
    }
    Ok(())
}

/// A run that fills one worker's log and then the history with S entries: every record is made and
/// every link of it stored to, every board entry is posted over, then a whole cycle, with some stores
/// and posts between the steps.
pub fn full(sizes: Sizes, seed: u64, reached: &mut Reached) -> Result<(), String> {
    let mut random = Random::new(seed);
    let mut both = Both::fresh(sizes)?;
    let mut number = 0;
    let mut go = |both: &mut Both, event| {
        number += 1;
        both.event(event, reached).map_err(|told| format!("{sizes:?}, event {number}: {told}"))
    };
    let w = (sizes.w - 1) as u8;
    let others = |random: &mut Random| random.below(usize::from(sizes.r)) as u8;
    for _ in 0..sizes.n {
        go(&mut both, Event::Make { w, r: 0 })?;
        for f in 0..sizes.k as u8 {
            let r = others(&mut random);
            go(&mut both, Event::Store { w, q: 0, f, r })?;
        }
        let r = others(&mut random);
        go(&mut both, Event::Move { w, r, q: 0 })?;
    }
    for e in 0..sizes.b as u8 {
        go(&mut both, Event::Post { w, e, r: 0 })?;
    }
    go(&mut both, Event::Collect)?;
    while both.second.phase != 0 {
        if random.percent(5) {
            let (q, r) = (others(&mut random), others(&mut random));
            go(&mut both, Event::Store { w, q, f: random.below(sizes.k.into()) as u8, r })?;
            go(&mut both, Event::Post { w, e: random.below(sizes.b.into()) as u8, r: q })?;
        }
        go(&mut both, Event::Collect)?;
    }
    Ok(())
}
