//! What is done to the parts of a trace.

use second::pool::Sizes;
use second::random::Random;
use second::trace::{Field, Kind};

use crate::both::sizes_of;
use crate::deal::{Bytes, Part};

#[derive(Clone, Copy, PartialEq, Eq)]
pub enum Harm {
    Equal,
    Falling,
    TenThenNine,
    FirstIsNought,
    Missing,
    Twice,
    Largest,
    BehindTheLargest,
    FromTwo,
    CountAltered,
    LastStepForACount,
    OtherSizes,
    SizesOutOfRange,
    SizesTwice,
    NoSizes,
    ByteBehindTheEnd,
    FieldBehindTheEnd,
    NoEnd,
    Cut,
    CutBetweenFields,
    Emptied,
    TagAltered,
    LengthAltered,
    StepAltered,
    Flipped,
    Noise,
    EmptyPartMore,
    PartTooMany,
    NoPart,
}

impl Harm {
    pub const ALL: [Harm; 29] = [
        Harm::Equal,
        Harm::Falling,
        Harm::TenThenNine,
        Harm::FirstIsNought,
        Harm::Missing,
        Harm::Twice,
        Harm::Largest,
        Harm::BehindTheLargest,
        Harm::FromTwo,
        Harm::CountAltered,
        Harm::LastStepForACount,
        Harm::OtherSizes,
        Harm::SizesOutOfRange,
        Harm::SizesTwice,
        Harm::NoSizes,
        Harm::ByteBehindTheEnd,
        Harm::FieldBehindTheEnd,
        Harm::NoEnd,
        Harm::Cut,
        Harm::CutBetweenFields,
        Harm::Emptied,
        Harm::TagAltered,
        Harm::LengthAltered,
        Harm::StepAltered,
        Harm::Flipped,
        Harm::Noise,
        Harm::EmptyPartMore,
        Harm::PartTooMany,
        Harm::NoPart,
    ];

    pub fn words(self) -> &'static str {
        match self {
            Harm::Equal => "a part's step number equal to the previous",
            Harm::Falling => "a part's step number below the previous",
            Harm::TenThenNine => "9 behind 10 in a part",
            Harm::FirstIsNought => "a part's first step number 0",
            Harm::Missing => "a step number missing",
            Harm::Twice => "a step number in two parts",
            Harm::Largest => "step number 4,294,967,295",
            Harm::BehindTheLargest => "an event behind step number 4,294,967,295",
            Harm::FromTwo => "step numbers from 2 on",
            Harm::CountAltered => "a part's count altered",
            Harm::LastStepForACount => "a part's last step number for its count",
            Harm::OtherSizes => "sizes that differ",
            Harm::SizesOutOfRange => "sizes out of range",
            Harm::SizesTwice => "sizes twice in a part",
            Harm::NoSizes => "a part without sizes",
            Harm::ByteBehindTheEnd => "a byte behind a part's end field",
            Harm::FieldBehindTheEnd => "a field behind a part's end field",
            Harm::NoEnd => "a part without its end field",
            Harm::Cut => "a part cut anywhere",
            Harm::CutBetweenFields => "a part cut between two fields",
            Harm::Emptied => "a part of length 0",
            Harm::TagAltered => "a tag altered",
            Harm::LengthAltered => "a length altered",
            Harm::StepAltered => "a bit of a number altered",
            Harm::Flipped => "bits flipped",
            Harm::Noise => "bytes at random for a part",
            Harm::EmptyPartMore => "a part without events more",
            Harm::PartTooMany => "a part too many",
            Harm::NoPart => "no part",
        }
    }

    /// Whether it was done: what needs an event to be done to is not done where there is none.
    pub fn done_to(self, parts: &mut Vec<Part>, random: &mut Random) -> bool {
        match self {
            Harm::EmptyPartMore => parts.insert(random.below(parts.len() + 1), empty_part(parts)),
            Harm::PartTooMany => parts.resize_with(10 + random.below(3), || empty_part(&[])),
            Harm::NoPart => parts.clear(),
            Harm::Twice => return twice(parts, random),
            Harm::FromTwo => parts.iter_mut().flatten().for_each(raise),
            _ if parts.is_empty() => return false,
            _ => {
                let which = random.below(parts.len());
                return self.done_to_part(&mut parts[which], random);
            }
        }
        true
    }

    fn done_to_part(self, part: &mut Part, random: &mut Random) -> bool {
        let any = random.below(part.len());
        let events: Vec<usize> = (0..part.len()).filter(|at| is_event(&part[*at])).collect();
        let last = part.len().saturating_sub(1);
        match self {
            Harm::Equal | Harm::Falling if events.len() > 1 => {
                let at = 1 + random.below(events.len() - 1);
                let before = number(&part[events[at - 1]]);
                let lower = if self == Harm::Equal { 0 } else { 1 + random.below(3) as u32 };
                put_number(&mut part[events[at]], before.saturating_sub(lower));
            }
            Harm::TenThenNine if events.len() > 1 => {
                let at = random.below(events.len() - 1);
                put_number(&mut part[events[at]], 10);
                put_number(&mut part[events[at + 1]], 9);
            }
            Harm::FirstIsNought if !events.is_empty() => put_number(&mut part[events[0]], 0),
            Harm::Missing if !events.is_empty() => {
                part.remove(random.pick(&events));
                recount(part, events.len() as u32 - 1);
            }
            Harm::Largest if !events.is_empty() => put_number(&mut part[events[events.len() - 1]], u32::MAX),
            Harm::BehindTheLargest if events.len() > 1 => {
                put_number(&mut part[events[events.len() - 2]], u32::MAX);
                put_number(&mut part[events[events.len() - 1]], random.pick(&[u32::MAX, 0, 1, 9]));
            }
            Harm::CountAltered if last > 0 => {
                let count = events.len() as u32;
                let any = random.number() as u32;
                let other = [count.wrapping_add(1), count.wrapping_sub(1), count.swap_bytes(), u32::MAX, any];
                recount(part, random.pick(&other));
            }
            Harm::LastStepForACount if !events.is_empty() => {
                let step = number(&part[events[events.len() - 1]]);
                recount(part, step);
            }
            Harm::OtherSizes | Harm::SizesOutOfRange => {
                let Some(sizes) = part.first().and_then(|field| sizes_of(field)) else { return false };
                part[0] = Field::of_sizes(other_sizes(sizes, self == Harm::SizesOutOfRange, random)).bytes();
            }
            Harm::SizesTwice if !part.is_empty() => part.insert(any + 1, part[0].clone()),
            Harm::NoSizes if !part.is_empty() => drop(part.remove(0)),
            Harm::ByteBehindTheEnd => part.push(vec![random.byte()]),
            Harm::FieldBehindTheEnd if !part.is_empty() => part.push(part[any].clone()),
            Harm::NoEnd => drop(part.pop()),
            Harm::CutBetweenFields => part.truncate(any),
            Harm::Emptied => part.clear(),
            Harm::TagAltered if part.get(any).is_some_and(|field| !field.is_empty()) => {
                let tag = random.byte();
                part[any][0] = random.pick(&[0x01, 0x7F, 0x10, 0x14, 0x15, 0x16, 0x17, 0x20, 0, tag]);
            }
            Harm::LengthAltered if part.get(any).is_some_and(|field| field.len() > 2) => {
                let kind = random.pick(&Kind::ALL);
                let length = random.pick(kind.lengths()) as u16;
                let length = random.pick(&[length, length << 8, 0, 256 + length]);
                part[any][1..3].copy_from_slice(&length.to_be_bytes());
            }
            Harm::StepAltered if part.get(any).is_some_and(|field| field.len() > 6) => {
                part[any][3 + random.below(4)] ^= 1 << random.below(8);
            }
            Harm::Cut => *part = vec![cut(part.concat(), random)],
            Harm::Flipped => *part = vec![flipped(part.concat(), random)],
            Harm::Noise => *part = vec![(0..random.below(40)).map(|_| random.byte()).collect()],
            _ => return false,
        }
        true
    }
}

fn is_event(field: &Bytes) -> bool {
    field.len() > 6 && ![0x01, 0x7F].contains(&field[0])
}

/// The number that an event's or the end's payload begins with.
fn number(field: &[u8]) -> u32 {
    u32::from_be_bytes([field[3], field[4], field[5], field[6]])
}

fn put_number(field: &mut [u8], number: u32) {
    field[3..7].copy_from_slice(&number.to_be_bytes());
}

/// The last field is an end with this count.
fn recount(part: &mut Part, count: u32) {
    part.pop();
    part.push(Field::End { count }.bytes());
}

/// An event's step number plus one.
fn raise(field: &mut Bytes) {
    if is_event(field) {
        let next = number(field).wrapping_add(1);
        put_number(field, next);
    }
}

/// A part without events, of the first part's sizes.
fn empty_part(parts: &[Part]) -> Part {
    let sizes = parts.first().and_then(|part| part.first()).and_then(|field| sizes_of(field));
    let sizes = sizes.unwrap_or(Sizes { n: 1, k: 1, w: 1, r: 1, b: 0 });
    vec![Field::of_sizes(sizes).bytes(), Field::End { count: 0 }.bytes()]
}

/// An event of one part once more, at its place in another.
fn twice(parts: &mut [Part], random: &mut Random) -> bool {
    let events: Vec<Bytes> = parts.iter().flatten().filter(|field| is_event(field)).cloned().collect();
    if events.is_empty() {
        return false;
    }
    let again = events[random.below(events.len())].clone();
    let without = parts.iter().position(|part| part.len() > 1 && !part.contains(&again));
    let Some(part) = without.map(|which| &mut parts[which]) else { return false };
    let steps = part.iter().filter(|field| is_event(field)).filter(|field| number(field) < number(&again));
    // another harm may have taken the part's sizes field
    let place = part.len().min(1 + steps.count());
    part.insert(place, again);
    let count = part.iter().filter(|field| is_event(field)).count();
    recount(part, count as u32);
    true
}

/// One of the sizes is another, in its range or beyond it.
fn other_sizes(mut sizes: Sizes, beyond: bool, random: &mut Random) -> Sizes {
    let Sizes { n, k, w, r, b } = &mut sizes;
    let (size, least, most) = match random.below(5) {
        0 => (n, 1, 1024),
        1 => (k, 1, 8),
        2 => (w, 1, 8),
        3 => (r, 1, 16),
        _ => (b, 0_u16, 16_u16),
    };
    *size = match beyond {
        true => random.pick(&[least.wrapping_sub(1), most + 1, most << 5, u16::MAX]),
        false if *size == most => most - 1,
        false => *size + 1,
    };
    sizes
}

fn cut(mut bytes: Bytes, random: &mut Random) -> Bytes {
    bytes.truncate(random.below(bytes.len()));
    bytes
}

fn flipped(mut bytes: Bytes, random: &mut Random) -> Bytes {
    if !bytes.is_empty() {
        for _ in 0..1 + random.below(3) {
            let at = random.below(bytes.len());
            bytes[at] ^= 1 << random.below(8);
        }
    }
    bytes
}
