//! Which traces are compared: those that the seeds make, some with a field across the end of
//! `replay`'s room for input, and long ones.

use std::fmt;

use second::maker::{make, make_long, make_with_field_at};
use second::random::Random;
use second::trace::Kind;

use crate::hand::{Way, ROOM};

/// How many long traces each range of seeds brings.
const LONG: u64 = 6;

/// What is done to the field that lies across the end of the room.
#[derive(Clone, Copy, Debug)]
pub enum Harm {
    None,
    CutAtTheEnd,
    Tag,
    Length,
    Number,
    ByteAfterTheTrace,
}

impl Harm {
    const ALL: [Harm; 6] =
        [Harm::None, Harm::CutAtTheEnd, Harm::Tag, Harm::Length, Harm::Number, Harm::ByteAfterTheTrace];
}

/// A trace to compare on.
#[derive(Clone, Copy, Debug)]
pub enum Task {
    Made {
        seed: u64,
    },
    Long {
        seed: u64,
    },
    /// A field of this kind of which so many bytes are within the room, and the others beyond.
    Across {
        kind: Kind,
        within: usize,
        harm: Harm,
    },
}

/// All of them, the long ones last, so that a difference shows on a short one if it can.
pub fn tasks(ranges: &[(u64, u64)]) -> impl Iterator<Item = Task> {
    let seeds = |first: u64, count| (0..count).map(move |further| first.wrapping_add(further));
    let ranges = ranges.to_vec();
    let made = ranges.clone().into_iter().flat_map(move |(first, count)| seeds(first, count));
    let long = ranges.into_iter().flat_map(move |(first, _)| seeds(first, LONG));
    made.map(|seed| Task::Made { seed }).chain(across()).chain(long.map(|seed| Task::Long { seed }))
}

fn across() -> impl Iterator<Item = Task> {
    let kinds = Kind::ALL.into_iter().filter(|kind| *kind != Kind::Sizes);
    let places = kinds.flat_map(|kind| (0..=3 + kind.length()).map(move |within| (kind, within)));
    places.flat_map(|(kind, within)| Harm::ALL.map(|harm| Task::Across { kind, within, harm }))
}

impl Task {
    pub fn trace(self) -> Vec<u8> {
        match self {
            Task::Made { seed } => make(seed).trace,
            Task::Long { seed } => make_long(seed, 100_000 + Random::new(seed).below(200_000)).trace,
            Task::Across { kind, within, harm } => {
                let begin = ROOM - within;
                let seed = (kind.tag() as usize * ROOM + begin) as u64;
                harmed(make_with_field_at(seed, kind, begin), begin, harm)
            }
        }
    }

    /// How the trace is handed over.
    pub fn way(self) -> Way {
        match self {
            Task::Made { seed } | Task::Long { seed } => match seed % 3 {
                0 => Way::Pipe,
                1 => Way::Pieces { seed },
                _ => Way::File,
            },
            Task::Across { .. } => Way::File,
        }
    }
}

/// The trace with harm done to the field that begins at this offset.
fn harmed(mut trace: Vec<u8>, begin: usize, harm: Harm) -> Vec<u8> {
    match harm {
        Harm::None => {}
        Harm::CutAtTheEnd => trace.truncate(ROOM),
        Harm::Tag => trace[begin] ^= 0x80,
        Harm::Length => trace[begin + 2] ^= 1,
        Harm::Number => trace[begin + 6] ^= 1,
        Harm::ByteAfterTheTrace => trace.push(0x7F),
    }
    trace
}

/// A name for it, which can be a file's.
impl fmt::Display for Task {
    fn fmt(&self, out: &mut fmt::Formatter) -> fmt::Result {
        match self {
            Task::Made { seed } => write!(out, "seed-{seed}"),
            Task::Long { seed } => write!(out, "long-seed-{seed}"),
            Task::Across { kind, within, harm } => {
                let name = format!("across-{kind:?}-{within}-{harm:?}");
                write!(out, "{}", name.to_lowercase())
            }
        }
    }
}
