//! Parts of a trace, one for each worker and one for the collector: dealt out of a whole one, and
//! joined by a plain merge, written for speed. It writes as it goes, so that where it finds something
//! wrong a part of the trace stands in the output already.

use yuyarisun::Sizes;

/// With the board, as `made` writes it.
const SIZES_FIELD: usize = 13;
const END_FIELD: usize = 7;

/// Parts end to end, and how long each is.
pub struct Parts {
    pub bytes: Vec<u8>,
    pub lengths: Vec<u64>,
}

/// How long the payload of an event is; 0 of any other tag.
fn payload(tag: u8) -> usize {
    match tag {
        0x10 | 0x12 => 6,
        0x11 | 0x15 | 0x16 => 7,
        0x13 | 0x14 => 8,
        0x20 => 4,
        _ => 0,
    }
}

/// The events of a whole trace, each of which goes to the part that is said of its step number and its
/// field.
pub fn deal(trace: &[u8], count: usize, whose: impl Fn(usize, &[u8]) -> usize) -> Parts {
    let mut parts = vec![trace[..SIZES_FIELD].to_vec(); count];
    let mut events = vec![0_u32; count];
    let (mut rest, mut step) = (&trace[SIZES_FIELD..trace.len() - END_FIELD], 1);
    while !rest.is_empty() {
        let (field, behind) = rest.split_at(3 + payload(rest[0]));
        let part = whose(step, field);
        parts[part].extend(field);
        events[part] += 1;
        (rest, step) = (behind, step + 1);
    }
    for (part, events) in parts.iter_mut().zip(events) {
        part.extend([0x7F, 0, 4]);
        part.extend(events.to_be_bytes());
    }
    let lengths = parts.iter().map(|part| part.len() as u64).collect();
    Parts { bytes: parts.concat(), lengths }
}

/// What is left of a part: the number of its next field, which is above all step numbers if that is its
/// end.
struct Head<'a> {
    rest: &'a [u8],
    number: u64,
    size: usize,
    events: u32,
}

const ENDED: u64 = 1 << 32;

impl<'a> Head<'a> {
    /// The next field, behind so many events of which the last had this number.
    fn at(rest: &'a [u8], events: u32, last: u64) -> Option<Head<'a>> {
        let number = u64::from(u32::from_be_bytes(rest.get(3..7)?.try_into().ok()?));
        if rest[0] == 0x7F {
            let whole = rest.len() == END_FIELD && rest[1..3] == [0, 4] && number == u64::from(events);
            return whole.then_some(Head { rest, number: ENDED, size: END_FIELD, events });
        }
        let payload = payload(rest[0]);
        let whole = payload != 0 && rest[1..3] == [0, payload as u8] && rest.len() >= 3 + payload;
        (whole && number > last).then_some(Head { rest, number, size: 3 + payload, events })
    }

    /// Behind the next event.
    fn behind(&self) -> Option<Head<'a>> {
        Head::at(&self.rest[self.size..], self.events + 1, self.number)
    }
}

/// The joined trace's length; `None` where something is wrong with the parts or the output.
pub fn merge(parts: &Parts, out: &mut [u8]) -> Option<usize> {
    let first = parts.bytes.get(..SIZES_FIELD)?;
    Sizes::of_trace(first).filter(|sizes| sizes.in_range())?;
    let (mut heads, mut rest) = (Vec::with_capacity(9), &parts.bytes[..]);
    for length in &parts.lengths {
        let (part, behind) = rest.split_at_checked(usize::try_from(*length).ok()?)?;
        if part.get(..SIZES_FIELD)? != first {
            return None;
        }
        heads.push(Head::at(&part[SIZES_FIELD..], 0, 0)?);
        rest = behind;
    }
    out.get_mut(..SIZES_FIELD)?.copy_from_slice(first);
    let (mut at, mut last) = (SIZES_FIELD, 0);
    loop {
        let next = heads.iter_mut().min_by_key(|head| head.number)?;
        if next.number == ENDED {
            break;
        }
        if next.number != last + 1 {
            return None;
        }
        last = next.number;
        out.get_mut(at..at + next.size)?.copy_from_slice(&next.rest[..next.size]);
        at += next.size;
        *next = next.behind()?;
    }
    let end = out.get_mut(at..at + END_FIELD)?;
    end[..3].copy_from_slice(&[0x7F, 0, 4]);
    end[3..].copy_from_slice(&(last as u32).to_be_bytes());
    (rest.is_empty() && heads.len() <= 9).then_some(at + END_FIELD)
}
