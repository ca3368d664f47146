//! What a pool consists of: the section "Sizes" of document 01, and document 02's last made number and
//! board.

use std::collections::{BTreeMap, BTreeSet};

/// A record's number, 1..N. "0 is none": here none is `None`, and only printing writes it as 0.
#[derive(Clone, Copy, Debug, PartialEq, Eq, PartialOrd, Ord)]
pub struct Record(pub u16);

/// Link `f` of a record, or a board entry: "They are links like the others, numbered N x K and up"
/// (document 02, request 5). The order of links is that of their numbers; the number itself is never
/// needed, so no record number can be taken for it.
#[derive(Clone, Copy, Debug, PartialEq, Eq, PartialOrd, Ord)]
pub enum Link {
    Of { record: Record, f: usize },
    Board { entry: usize },
}

impl Link {
    /// The record that it is a link of. A board entry belongs to no record.
    pub fn record(self) -> Option<Record> {
        match self {
            Link::Of { record, .. } => Some(record),
            Link::Board { .. } => None,
        }
    }
}

/// An entry of a log or of the history: (link, old value).
#[derive(Clone, Copy, Debug, PartialEq, Eq)]
pub struct Entry {
    pub link: Link,
    pub old: Option<Record>,
}

/// "N records, K links in each, W workers, R registers per worker." "Add B entries, 0 to 16, of one
/// record number each" (document 02, request 5).
#[derive(Clone, Copy, Debug, PartialEq, Eq)]
pub struct Sizes {
    pub n: u16,
    pub k: u16,
    pub w: u16,
    pub r: u16,
    pub b: u16,
}

impl Sizes {
    /// "S becomes N x K + B" (document 02, request 5).
    pub fn s(&self) -> usize {
        usize::from(self.n) * usize::from(self.k) + usize::from(self.b)
    }

    pub fn records(&self) -> impl Iterator<Item = Record> {
        (1..=self.n).map(Record)
    }

    pub fn links_of(&self, record: Record) -> impl Iterator<Item = Link> {
        (0..usize::from(self.k)).map(move |f| Link::Of { record, f })
    }

    pub fn board(&self) -> impl Iterator<Item = Link> {
        (0..usize::from(self.b)).map(|entry| Link::Board { entry })
    }

    pub fn links(&self) -> impl Iterator<Item = Link> + '_ {
        self.records().flat_map(|record| self.links_of(record)).chain(self.board())
    }
}

/// "For each worker: registers, snoop flag, log."
#[derive(Clone, Debug, PartialEq, Eq)]
pub struct Worker {
    pub registers: Vec<Option<Record>>,
    pub snoops: bool,
    pub log: Vec<Entry>,
}

/// A mark that is on is membership in its set; a number that is 0 and a link that holds none may
/// be missing from their map.
#[derive(Clone, Debug, PartialEq, Eq)]
pub struct Pool {
    pub sizes: Sizes,
    pub used: BTreeSet<Record>,
    /// Signed, so that a wrong rule shows as a count below 0 and not as an overflow.
    pub counts: BTreeMap<Record, i64>,
    pub held: BTreeSet<Record>,
    pub candidates: BTreeSet<Record>,
    /// The worker itself, not worker + 1: a record without a maker is missing.
    pub makers: BTreeMap<Record, usize>,
    pub values: BTreeMap<Link, Record>,
    pub changed: BTreeSet<Link>,
    pub workers: Vec<Worker>,
    /// "The pool remembers the last made number" (document 02, request 1).
    pub last_made: Option<Record>,
    pub history: Vec<Entry>,
    pub phase: u8,
    pub position: usize,
    pub closed: u16,
}

impl Pool {
    /// "A fresh pool has every number 0, every record free, every list empty, phase 0." The last made
    /// number is "0 when fresh".
    pub fn fresh(sizes: Sizes) -> Pool {
        let worker = Worker { registers: vec![None; usize::from(sizes.r)], snoops: false, log: Vec::new() };
        Pool {
            sizes,
            used: BTreeSet::new(),
            counts: BTreeMap::new(),
            held: BTreeSet::new(),
            candidates: BTreeSet::new(),
            makers: BTreeMap::new(),
            values: BTreeMap::new(),
            changed: BTreeSet::new(),
            workers: vec![worker; usize::from(sizes.w)],
            last_made: None,
            history: Vec::new(),
            phase: 0,
            position: 0,
            closed: 0,
        }
    }

    /// The present value of a link.
    pub fn value(&self, link: Link) -> Option<Record> {
        self.values.get(&link).copied()
    }

    pub fn set_value(&mut self, link: Link, value: Option<Record>) {
        match value {
            Some(record) => self.values.insert(link, record),
            None => self.values.remove(&link),
        };
    }

    pub fn count(&self, record: Record) -> i64 {
        self.counts.get(&record).copied().unwrap_or(0)
    }

    pub fn is_free(&self, record: &Record) -> bool {
        !self.used.contains(record)
    }

    pub fn free_records(&self) -> usize {
        usize::from(self.sizes.n) - self.used.len()
    }
}
