//! What events do at the ends of words, where a search by words might pass a record over and the marks of
//! a record's links may lie in two words; and last words of which all marks are on, or one.

use std::collections::BTreeMap;

use second::ends::AT_ENDS;
use second::event::{Answer, Event};
use second::pool::{Link, Pool, Record, Sizes};
use yuyarisun::Lent;

use crate::lie::{link_number, mark_tables};
use crate::words::{in_the_last, unpacked, WIDTH};

const EVENTS: [&str; 11] = [
    "a make takes the last record of a word",
    "a make takes the first record of a later word",
    "a make takes a record of a later word than the last made's",
    "the last record of a word is freed",
    "the first record of a later word is freed",
    "a record is freed, and the marks of its links lie in two words",
    "the last record of a word gives up children",
    "the first record of a later word gives up children",
    "a record gives up children, and the marks of its links lie in two words",
    "the changed mark of the last link of a word goes on",
    "the changed mark of the first link of a later word goes on",
];

/// The last word of a table of marks.
const LAST_WORDS: [&str; 4] = [
    "64 marks in the last word, all on",
    "64 marks in the last word, one on",
    "unused bits in the last word, and all its marks on",
    "one mark in the last word, and on",
];

/// All of these, and every size at the end of a word.
pub fn all_words() -> Vec<String> {
    let last_words = ["used", "held", "candidates", "changed"]
        .iter()
        .flat_map(|table| LAST_WORDS.map(|words| of(table, words)));
    sizes().into_iter().chain(EVENTS.map(String::from)).chain(last_words).collect()
}

/// The sizes alone.
pub fn sizes() -> Vec<String> {
    AT_ENDS.map(String::from).into()
}

fn of(table: &str, words: &str) -> String {
    format!("{table}: {words}")
}

/// Where the bit of a mark is: "lowest number in the lowest bit".
fn is_last(place: usize) -> bool {
    place % WIDTH == WIDTH - 1
}

fn is_first_of_a_later(place: usize) -> bool {
    place >= WIDTH && place.is_multiple_of(WIDTH)
}

fn place(record: Record) -> usize {
    usize::from(record.0) - 1
}

fn places_of_links(sizes: Sizes, record: Record) -> impl Iterator<Item = usize> {
    sizes.links_of(record).map(move |link| link_number(sizes, link).into())
}

fn lie_in_two_words(sizes: Sizes, record: Record) -> bool {
    let words: Vec<usize> = places_of_links(sizes, record).map(|place| place / WIDTH).collect();
    words.first() != words.last()
}

/// The records at the ends of words, and those whose links' marks lie in two of them.
pub fn records(sizes: Sizes) -> Vec<Record> {
    let is_at_an_end = |record: &Record| {
        is_last(place(*record)) || is_first_of_a_later(place(*record)) || lie_in_two_words(sizes, *record)
    };
    sizes.records().filter(is_at_an_end).collect()
}

/// What has to be known of a pool before an event.
pub struct Upon {
    last_made: Option<Record>,
    logged: Vec<usize>,
    /// In phase 6 alone.
    values: BTreeMap<Link, Record>,
}

impl Upon {
    pub fn of(pool: &Pool) -> Upon {
        let logged = pool.workers.iter().map(|worker| worker.log.len()).collect();
        let values = if pool.phase == 6 { pool.values.clone() } else { BTreeMap::new() };
        Upon { last_made: pool.last_made, logged, values }
    }

    /// Which of `EVENTS` came, in words.
    pub fn came(&self, event: Event, answer: Answer, after: &Pool) -> impl Iterator<Item = &'static str> {
        let sizes = after.sizes;
        let mut came = [false; EVENTS.len()];
        match (event, answer.value) {
            (Event::Make { .. }, Some(made)) => {
                let word = |record: Record| place(record) / WIDTH;
                let later = self.last_made.is_some_and(|last| word(made) > word(last));
                came[..3].copy_from_slice(&[is_last(place(made)), is_first_of_a_later(place(made)), later]);
            }
            (Event::Collect, Some(freed)) => came[3..6].copy_from_slice(&at(sizes, freed)),
            (Event::Collect, None) => {
                if let Some(record) = self.emptied(after) {
                    came[6..9].copy_from_slice(&at(sizes, record));
                }
            }
            (Event::Store { .. } | Event::Post { .. }, _) => {
                for place in self.newly_logged(after) {
                    came[9] |= is_last(place);
                    came[10] |= is_first_of_a_later(place);
                }
            }
            _ => {}
        }
        EVENTS.into_iter().zip(came).filter(|(_, came)| *came).map(|(words, _)| words)
    }

    /// The record that a step of phase 6 emptied and did not free.
    fn emptied(&self, after: &Pool) -> Option<Record> {
        let mut emptied = self.values.keys().filter(|link| after.value(**link).is_none());
        emptied.next().and_then(|link| link.record())
    }

    /// The place of the changed mark that a worker's event put on.
    fn newly_logged(&self, after: &Pool) -> Vec<usize> {
        let logs =
            after.workers.iter().zip(&self.logged).filter(|(worker, before)| worker.log.len() > **before);
        let links = logs.filter_map(|(worker, _)| Some(worker.log.last()?.link));
        links.map(|link| link_number(after.sizes, link).into()).collect()
    }
}

fn at(sizes: Sizes, record: Record) -> [bool; 3] {
    let place = place(record);
    [is_last(place), is_first_of_a_later(place), lie_in_two_words(sizes, record)]
}

/// What the last words are like, for each table of marks.
pub fn last_words(lent: &Lent) -> Vec<String> {
    let mut came = Vec::new();
    for (table, words, marks) in mark_tables(lent) {
        let last = in_the_last(marks);
        let on: usize = unpacked(&words[words.len() - 1..]).into_iter().map(usize::from).sum();
        let like = [
            last == WIDTH && on == last,
            last == WIDTH && on == 1,
            last < WIDTH && on == last,
            last == 1 && on == 1,
        ];
        let like = LAST_WORDS.into_iter().zip(like).filter(|(_, like)| *like);
        came.extend(like.map(|(words, _)| of(table, words)));
    }
    came
}
