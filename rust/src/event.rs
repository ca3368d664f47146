//! Events as values, the records that they answer, and the fields of a trace.

use std::fmt;
use std::num::NonZeroU16;

use crate::sizes::Sizes;

/// A record's number, 1..N. Document 01's "0 is none" is `None` of an `Option<Record>`, which is no
/// longer than a `u16`.
///
/// A link has a number too, and the two never stand for one another: no call of this crate takes or
/// gives a link's number for a record's.
#[derive(Clone, Copy, Debug, PartialEq, Eq, PartialOrd, Ord, Hash)]
pub struct Record(NonZeroU16);

impl Record {
    /// The record of a number as a table has it; `None` for 0.
    pub fn of_number(number: u16) -> Option<Record> {
        NonZeroU16::new(number).map(Record)
    }

    /// Its number.
    pub fn number(self) -> u16 {
        self.0.get()
    }
}

impl fmt::Display for Record {
    fn fmt(&self, out: &mut fmt::Formatter) -> fmt::Result {
        self.0.fmt(out)
    }
}

/// An event. The letters are the documents': `w` a worker, `r` and `q` registers of it, `f` a link
/// of the record in `q`, `e` a board entry, each counted from 0.
#[derive(Clone, Copy, Debug, PartialEq, Eq, Hash)]
#[allow(missing_docs)] // The letters are said once, above.
pub enum Event {
    /// The first free record above the last one made, else the lowest, becomes used, and register `r`
    /// holds it. The value is that record.
    Make { w: u8, r: u8 },
    /// Register `r` takes what `q` holds, which is the value.
    Move { w: u8, r: u8, q: u8 },
    /// Register `r` becomes none. There is no value.
    Drop { w: u8, r: u8 },
    /// Register `r` takes link `f` of the record in `q`, which is the value.
    Load { w: u8, r: u8, q: u8, f: u8 },
    /// Link `f` of the record in `q` takes what `r` holds. The value is the one overwritten.
    Store { w: u8, q: u8, f: u8, r: u8 },
    /// Register `r` takes what board entry `e` holds, which is the value.
    Look { w: u8, r: u8, e: u8 },
    /// Board entry `e` takes what `r` holds. The value is the one overwritten.
    Post { w: u8, e: u8, r: u8 },
    /// One collector step. The value is the record freed.
    Collect,
}

impl Event {
    /// Its tag in a trace, and its numbers in the trace's order; those that it does not have are 0.
    pub(crate) fn tag_and_numbers(self) -> (u8, [u8; 4]) {
        match self {
            Event::Make { w, r } => (0x10, [w, r, 0, 0]),
            Event::Move { w, r, q } => (0x11, [w, r, q, 0]),
            Event::Drop { w, r } => (0x12, [w, r, 0, 0]),
            Event::Load { w, r, q, f } => (0x13, [w, r, q, f]),
            Event::Store { w, q, f, r } => (0x14, [w, q, f, r]),
            Event::Look { w, r, e } => (0x15, [w, r, e, 0]),
            Event::Post { w, e, r } => (0x16, [w, e, r, 0]),
            Event::Collect => (0x20, [0; 4]),
        }
    }
}

/// A field of a trace, for those who write one: many events are [`Field::Event`]s one after another,
/// a whole trace has the sizes before them and the end behind.
#[derive(Clone, Copy, Debug, PartialEq, Eq, Hash)]
pub enum Field {
    /// The sizes of the pool. Without a board the field has length 8, as in traces from before there was
    /// one; with a board it has length 10, with B at its end. Readers take a B of 0 in both.
    Sizes(Sizes),
    /// An event with its step number, which is the one before plus one; the first is 1.
    #[allow(missing_docs)]
    Event { step: u32, event: Event },
    /// The end, with how many events there were.
    #[allow(missing_docs)]
    End { count: u32 },
}

impl Field {
    /// Appends the field's bytes: tag, length, payload, all numbers most significant byte first.
    ///
    /// ```
    /// use yuyarisun::{Event, Field};
    ///
    /// let mut bytes = Vec::new();
    /// Field::Event { step: 258, event: Event::Move { w: 3, r: 4, q: 5 } }.put(&mut bytes);
    /// assert_eq!(bytes, [0x11, 0, 7, 0, 0, 1, 2, 3, 4, 5]);
    /// ```
    ///
    /// ```
    /// use yuyarisun::{Field, Sizes};
    ///
    /// let (mut with, mut without) = (Vec::new(), Vec::new());
    /// Field::Sizes(Sizes { n: 258, k: 1, w: 2, r: 3, b: 4 }).put(&mut with);
    /// Field::Sizes(Sizes { n: 258, k: 1, w: 2, r: 3, b: 0 }).put(&mut without);
    /// assert_eq!(with, [0x01, 0, 10, 1, 2, 0, 1, 0, 2, 0, 3, 0, 4]);
    /// assert_eq!(without, [0x01, 0, 8, 1, 2, 0, 1, 0, 2, 0, 3]);
    /// ```
    pub fn put(self, bytes: &mut Vec<u8>) {
        let (tag, length) = self.tag_and_length();
        bytes.extend([tag, 0, length]);
        match self {
            Field::Sizes(Sizes { n, k, w, r, b }) => {
                let sizes = [n, k, w, r, b].map(u16::to_be_bytes);
                bytes.extend(&sizes.as_flattened()[..usize::from(length)]);
            }
            Field::Event { step, event } => {
                let (_, numbers) = event.tag_and_numbers();
                bytes.extend(step.to_be_bytes());
                bytes.extend(&numbers[..usize::from(length) - 4]);
            }
            Field::End { count } => bytes.extend(count.to_be_bytes()),
        }
    }

    fn tag_and_length(self) -> (u8, u8) {
        match self {
            Field::Sizes(Sizes { b: 0, .. }) => (0x01, 8),
            Field::Sizes(_) => (0x01, 10),
            Field::Event { event, .. } => {
                let (tag, _) = event.tag_and_numbers();
                let length = match event {
                    Event::Collect => 4,
                    Event::Make { .. } | Event::Drop { .. } => 6,
                    Event::Move { .. } | Event::Look { .. } | Event::Post { .. } => 7,
                    Event::Load { .. } | Event::Store { .. } => 8,
                };
                (tag, length)
            }
            Field::End { .. } => (0x7F, 4),
        }
    }
}
