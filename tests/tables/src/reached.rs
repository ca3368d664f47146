//! What the comparison reached, how often, and what it should have reached.

use std::collections::BTreeMap;

use second::ends::{at_ends, AT_ENDS};
use second::event::Event;
use second::pool::{Pool, Sizes};
use second::tally::{makes, wrongs, MAKES, WRONGS};
use second::waiting::{reclaims, RECLAIMS};

use crate::runs::LARGEST;

pub const AT_THE_LARGEST: &str = "at the largest sizes";

pub const KINDS: [&str; 8] = ["make", "move", "drop", "load", "store", "look", "post", "collect"];

pub fn kind(event: Event) -> &'static str {
    event.kind().name()
}

/// Which numbers a kind of event is answered with on a sound pool.
fn numbers(kind: &str) -> &'static [u8] {
    match kind {
        "make" => &[0, 3, 13, 5],
        "move" | "drop" => &[0, 3, 13],
        "load" | "store" => &[0, 3, 13, 14, 4],
        "look" | "post" => &[0, 3, 13, 14],
        _ => &[0],
    }
}

/// What an event comes upon, before it is done.
pub struct Upon {
    phase: u8,
    /// Of a make, which of `MAKES`.
    makes: Option<[bool; MAKES.len()]>,
    /// Of a collector step, which of `RECLAIMS`.
    reclaims: Option<[bool; RECLAIMS.len()]>,
    wrongs: [bool; WRONGS.len()],
}

impl Upon {
    pub fn of(pool: &Pool, event: Event) -> Upon {
        let makes = matches!(event, Event::Make { .. }).then(|| makes(pool));
        let reclaims = (event == Event::Collect).then(|| reclaims(pool));
        Upon { phase: pool.phase, makes, reclaims, wrongs: wrongs(pool, event) }
    }
}

/// A part of the comparison, with how often each thing was reached in it.
#[derive(Default)]
pub struct Reached {
    pub cases: u64,
    /// By kind, phase before and number.
    events: BTreeMap<(&'static str, u8, u8), u64>,
    situations: BTreeMap<String, u64>,
    /// Events on tables that are refused whatever the event is.
    pub refused: u64,
}

impl Reached {
    pub fn event(&mut self, event: Event, upon: Upon, number: u8) {
        *self.events.entry((kind(event), upon.phase, number)).or_insert(0) += 1;
        let makes = upon.makes.filter(|_| number == 0).unwrap_or_default();
        let reclaims = upon.reclaims.unwrap_or_default();
        let came = MAKES.into_iter().zip(makes).chain(RECLAIMS.into_iter().zip(reclaims));
        let came = came.chain(WRONGS.into_iter().zip(upon.wrongs));
        came.filter(|(_, came)| *came).for_each(|(words, _)| self.situation(words));
    }

    pub fn situation(&mut self, words: &str) {
        match self.situations.get_mut(words) {
            Some(times) => *times += 1,
            None => drop(self.situations.insert(words.into(), 1)),
        }
    }

    pub fn sizes(&mut self, sizes: Sizes) {
        if sizes == LARGEST {
            self.situation(AT_THE_LARGEST);
        }
        let ends = AT_ENDS.into_iter().zip(at_ends(sizes));
        ends.filter(|(_, came)| *came).for_each(|(words, _)| self.situation(words));
    }

    /// How many events were compared, those that every table refuses among them.
    pub fn calls(&self) -> u64 {
        self.events.values().sum::<u64>() + self.refused
    }

    /// Each kind in each phase with each of its numbers has to have come, and no other, a make upon
    /// each of `MAKES`, a step of phase 6 upon each of `RECLAIMS`, and each of `WRONGS`; so have the
    /// situations.
    pub fn faults(&self, every_event: bool, situations: &[String]) -> Vec<String> {
        let mut faults = Vec::new();
        for kind in KINDS.into_iter().filter(|_| every_event) {
            for phase in 0..=6 {
                for number in numbers(kind) {
                    if !self.events.contains_key(&(kind, phase, *number)) {
                        faults.push(format!("never reached: {kind} in phase {phase} answered {number}"));
                    }
                }
            }
        }
        for (kind, phase, number) in self.events.keys() {
            if !numbers(kind).contains(number) {
                faults.push(format!("reached: {kind} in phase {phase} answered {number}"));
            }
        }
        let upon = MAKES.into_iter().chain(RECLAIMS).chain(WRONGS).filter(|_| every_event);
        for words in situations.iter().map(String::as_str).chain(upon) {
            if !self.situations.contains_key(words) {
                faults.push(format!("never reached: {words}"));
            }
        }
        faults
    }

    pub fn print(&self) {
        if !self.events.is_empty() {
            println!(
                "  {:>8} {:>7} {}",
                "",
                "number",
                (0..7).map(|phase| format!("{phase:>8}")).collect::<String>()
            );
        }
        for kind in KINDS.into_iter().filter(|_| !self.events.is_empty()) {
            for number in numbers(kind) {
                let times = |phase| self.events.get(&(kind, phase, *number)).copied().unwrap_or(0);
                println!(
                    "  {kind:>8} {number:>7} {}",
                    (0..7).map(|phase| format!("{:>8}", times(phase))).collect::<String>()
                );
            }
        }
        for (words, times) in &self.situations {
            println!("{times:>10}  {words}");
        }
    }
}
