//! The ways in which a made trace is damaged.

use crate::pool::Sizes;
use crate::random::Random;
use crate::trace::{Field, Kind, LARGEST};

#[derive(Clone, Copy, Debug, PartialEq, Eq)]
pub enum Damage {
    Cut,
    CutBetweenFields,
    Extended,
    Flipped,
    TagAltered,
    LengthAltered,
    StepAltered,
    EventsSwapped,
    SizesTwice,
    SizesLate,
    SizesOutOfRange,
    SizesLengthAltered,
    EndEarly,
    CountAltered,
    Noise,
    Nothing,
}

impl Damage {
    pub const ALL: [Damage; 16] = [
        Damage::Cut,
        Damage::CutBetweenFields,
        Damage::Extended,
        Damage::Flipped,
        Damage::TagAltered,
        Damage::LengthAltered,
        Damage::StepAltered,
        Damage::EventsSwapped,
        Damage::SizesTwice,
        Damage::SizesLate,
        Damage::SizesOutOfRange,
        Damage::SizesLengthAltered,
        Damage::EndEarly,
        Damage::CountAltered,
        Damage::Noise,
        Damage::Nothing,
    ];

    pub fn name(self) -> &'static str {
        match self {
            Damage::Cut => "cut anywhere",
            Damage::CutBetweenFields => "cut between two fields",
            Damage::Extended => "bytes after the end",
            Damage::Flipped => "bits flipped",
            Damage::TagAltered => "a tag altered",
            Damage::LengthAltered => "a length altered",
            Damage::StepAltered => "a step number altered",
            Damage::EventsSwapped => "two fields swapped",
            Damage::SizesTwice => "sizes twice",
            Damage::SizesLate => "sizes late or missing",
            Damage::SizesOutOfRange => "sizes out of range",
            Damage::SizesLengthAltered => "the sizes' length altered",
            Damage::EndEarly => "the end field early",
            Damage::CountAltered => "the end's count altered",
            Damage::Noise => "bytes at random",
            Damage::Nothing => "no bytes at all",
        }
    }

    /// The bytes of a whole trace with this damage. The first field is the sizes, the last the end.
    pub fn done_to(self, fields: &[Field], random: &mut Random) -> Vec<u8> {
        let mut parts: Vec<Vec<u8>> = fields.iter().map(Field::bytes).collect();
        let any = random.below(parts.len());
        let last = parts.len() - 1;
        match self {
            Damage::Cut => return cut(parts.concat(), random),
            Damage::CutBetweenFields => parts.truncate(any),
            Damage::Extended => parts.push(extension(&parts, random)),
            Damage::Flipped => return flipped(parts.concat(), random),
            Damage::TagAltered => parts[any][0] = other_tag(random),
            Damage::LengthAltered => parts[any][1..3].copy_from_slice(&other_length(random)),
            Damage::StepAltered => alter_number(&mut parts[any], random),
            Damage::EventsSwapped => parts.swap(any, random.below(last + 1)),
            Damage::SizesTwice => parts.insert(any + 1, sizes_again(fields[0], random)),
            Damage::SizesLate => sizes_late(&mut parts, any, random),
            Damage::SizesOutOfRange => parts[0] = out_of_range(fields[0], random).bytes(),
            Damage::SizesLengthAltered => parts[0][2] = random.pick(&[0, 6, 8, 9, 10, 12]),
            Damage::EndEarly => parts.insert(any, end_with(any, random).bytes()),
            Damage::CountAltered => alter_number(&mut parts[last], random),
            Damage::Noise => return noise(100, random),
            Damage::Nothing => return Vec::new(),
        }
        parts.concat()
    }
}

fn cut(mut bytes: Vec<u8>, random: &mut Random) -> Vec<u8> {
    bytes.truncate(random.below(bytes.len()));
    bytes
}

fn noise(most: usize, random: &mut Random) -> Vec<u8> {
    (0..1 + random.below(most)).map(|_| random.byte()).collect()
}

/// A few bytes, or a field once more.
fn extension(parts: &[Vec<u8>], random: &mut Random) -> Vec<u8> {
    if random.percent(50) {
        noise(20, random)
    } else {
        parts[random.below(parts.len())].clone()
    }
}

fn flipped(mut bytes: Vec<u8>, random: &mut Random) -> Vec<u8> {
    for _ in 0..1 + random.below(3) {
        let place = random.below(bytes.len());
        bytes[place] ^= 1 << random.below(8);
    }
    bytes
}

/// A tag of another kind, or none.
fn other_tag(random: &mut Random) -> u8 {
    if random.percent(50) {
        random.pick(&Kind::ALL).tag()
    } else {
        random.byte()
    }
}

/// A length of another kind, one with its bytes the wrong way round, or any.
fn other_length(random: &mut Random) -> [u8; 2] {
    let kind = random.pick(&Kind::ALL);
    let length = random.pick(kind.lengths()) as u16;
    let any = random.number() as u16;
    random.pick(&[length.to_be_bytes(), length.to_le_bytes(), [0, 0], any.to_be_bytes()])
}

/// The four-byte number at the head of an event's or the end's payload; in the sizes, N and K.
fn alter_number(part: &mut [u8], random: &mut Random) {
    let Some(number) = part.get_mut(3..7) else { return };
    let was = u32::from_be_bytes([number[0], number[1], number[2], number[3]]);
    let any = random.number() as u32;
    let others = [was.wrapping_add(1), was.wrapping_sub(1), 0, u32::MAX, was.swap_bytes(), any];
    number.copy_from_slice(&random.pick(&others).to_be_bytes());
}

/// The same sizes again, or others that are out of range.
fn sizes_again(sizes: Field, random: &mut Random) -> Vec<u8> {
    if random.percent(50) {
        sizes.bytes()
    } else {
        out_of_range(sizes, random).bytes()
    }
}

/// The sizes somewhere after the first event, or nowhere.
fn sizes_late(parts: &mut Vec<Vec<u8>>, place: usize, random: &mut Random) {
    let sizes = parts.remove(0);
    if random.percent(70) {
        parts.insert(place.min(parts.len()), sizes);
    }
}

/// One size is 0, which B may be and which for it is 17, or just beyond what `replay` takes, or what the
/// pool itself takes, or far off.
fn out_of_range(field: Field, random: &mut Random) -> Field {
    let Field::Sizes { mut sizes, .. } = field else { return field };
    let Sizes { n, k, w, r, b } = &mut sizes;
    let (size, beyond) = match random.below(5) {
        0 => (n, [0, LARGEST.n + 1, 1024]),
        1 => (k, [0, LARGEST.k + 1, 8]),
        2 => (w, [0, LARGEST.w + 1, 8]),
        3 => (r, [0, LARGEST.r + 1, 16]),
        _ => (b, [17, LARGEST.b + 1, 16]),
    };
    *size = random.pick(&[beyond[0], beyond[1], beyond[2], 256, u16::MAX]);
    Field::of_sizes(sizes)
}

/// An end field for a trace of so many fields, at times with another count.
fn end_with(fields: usize, random: &mut Random) -> Field {
    let events = fields.saturating_sub(1) as u32;
    let count = random.pick(&[events, events, events + 1, 0]);
    Field::End { count }
}
