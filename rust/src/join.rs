//! Parts of a trace, joined: one file for each worker, and one for the collector.

use std::error::Error;
use std::fmt;

use crate::raw;
use crate::refusal::Refusal;

/// Where in a part something stands.
#[derive(Clone, Copy, Debug, PartialEq, Eq, Hash)]
pub struct Within {
    /// Which part, counted from 0.
    pub part: usize,
    /// Which byte of it.
    pub place: usize,
}

/// Parts are not joined: why, and where. Nothing was written.
///
/// ```
/// use yuyarisun::{join, Refusal, Within};
///
/// let sizes = [1, 0, 8, 0, 2, 0, 1, 0, 1, 0, 1];
/// let whole = [&sizes[..], &[0x7F, 0, 4, 0, 0, 0, 0]].concat();
/// let cut = &whole[..11];
/// let unjoined = join(&[&whole, cut]).unwrap_err();
/// assert_eq!((unjoined.refusal, unjoined.place), (Refusal::StopsShort, 29));
/// assert_eq!(unjoined.within, Some(Within { part: 1, place: 11 }));
/// assert_eq!(unjoined.to_string(), "part 1, byte 11: the part stops inside a field or before the end field");
/// ```
#[derive(Clone, Copy, Debug, PartialEq, Eq, Hash)]
pub struct Unjoined {
    /// Why.
    pub refusal: Refusal,
    /// Where the field begins that is refused, or where the extra byte is, counted in all parts as
    /// they lie end to end; 0 where it is no field that is refused.
    pub place: usize,
    /// Where that is in its part; `None` where it is no field that is refused.
    pub within: Option<Within>,
}

impl Unjoined {
    /// What is wrong with the parts. Of a part some numbers say something else than of a trace.
    pub fn words(self) -> &'static str {
        match (self.refusal, self.within) {
            (Refusal::WrongSize, Some(_)) => "a size is out of its range",
            (Refusal::WrongSize, None) => {
                "the parts aren't one to nine, or their lengths don't add up to the slice"
            }
            (Refusal::StopsShort, _) => "the part stops inside a field or before the end field",
            (Refusal::WrongStep, Some(_)) => "step number not above the part's previous number",
            (Refusal::WrongStep, None) => "the joined step numbers aren't 1 to n",
            (Refusal::WrongCount, _) => "end field's count is not how many events the part holds",
            (refusal, _) => refusal.words(),
        }
    }
}

impl fmt::Display for Unjoined {
    fn fmt(&self, out: &mut fmt::Formatter) -> fmt::Result {
        if let Some(Within { part, place }) = self.within {
            write!(out, "part {part}, byte {place}: ")?;
        }
        out.write_str(self.words())
    }
}

impl Error for Unjoined {
    fn source(&self) -> Option<&(dyn Error + 'static)> {
        Some(&self.refusal)
    }
}

/// Joins one to nine parts of a trace. Each has the sizes field of the trace, some of its events with
/// rising step numbers, and an end field with how many these are. The joined trace has the first
/// part's sizes field, then every event of every part once, by step number as a number, then its end
/// field.
///
/// Refuses in this order: [`Refusal::WrongSize`] for no part and for more than nine; the first part
/// with a field that is refused; [`Refusal::SizesDiffer`]; [`Refusal::WrongStep`] where the joined
/// step numbers aren't 1 to n.
///
/// ```
/// use yuyarisun::{join, Event, Field, Sizes};
///
/// let part = |steps: &[u32]| {
///     let mut bytes = Vec::new();
///     Field::Sizes(Sizes { n: 2, k: 1, w: 1, r: 1, b: 0 }).put(&mut bytes);
///     steps.iter().for_each(|step| Field::Event { step: *step, event: Event::Collect }.put(&mut bytes));
///     Field::End { count: steps.len() as u32 }.put(&mut bytes);
///     bytes
/// };
/// let (odd, even) = (part(&[1, 3, 5, 7, 9]), part(&[2, 4, 6, 8, 10]));
/// assert_eq!(join(&[&odd, &even])?, part(&[1, 2, 3, 4, 5, 6, 7, 8, 9, 10]));
/// # Ok::<(), yuyarisun::Unjoined>(())
/// ```
pub fn join(parts: &[&[u8]]) -> Result<Vec<u8>, Unjoined> {
    let lengths: Vec<u64> = parts.iter().map(|part| part.len() as u64).collect();
    let parts = parts.concat();
    let mut out = vec![0; parts.len()];
    let length = join_into(&parts, &lengths, &mut out)?;
    out.truncate(length);
    Ok(out)
}

/// The same of parts that lie end to end in one slice already, with a table of their lengths, into a
/// slice of one's own. Answers how long the joined trace is; the bytes beyond it stay.
///
/// A slice as long as all parts together is always long enough: an event of the joined trace is one of
/// a part, its sizes field the first part's, and its end field as long as that part's. Refuses as
/// [`join`] does, and besides by [`Refusal::WrongSize`] where the lengths don't add up to the slice, and
/// last of all by [`Refusal::OutputShort`].
///
/// ```
/// use yuyarisun::{join_into, Refusal};
///
/// let part = [1, 0, 8, 0, 2, 0, 1, 0, 1, 0, 1, 0x7F, 0, 4, 0, 0, 0, 0];
/// let mut out = [9; 20];
/// assert_eq!(join_into(&part, &[18], &mut out)?, 18);
/// assert_eq!((&out[..18], &out[18..]), (&part[..], &[9, 9][..]));
/// assert_eq!(join_into(&part, &[18], &mut out[..17]).unwrap_err().refusal, Refusal::OutputShort);
/// # Ok::<(), yuyarisun::Unjoined>(())
/// ```
pub fn join_into(parts: &[u8], lengths: &[u64], out: &mut [u8]) -> Result<usize, Unjoined> {
    let raw::Joined { number, length, place } = raw::join(parts, lengths, out);
    match Refusal::answered(number) {
        Ok(()) => Ok(length),
        Err(refusal) => Err(Unjoined { refusal, place, within: within(parts, lengths) }),
    }
}

/// Where the first field is that is refused. The place in the whole slice does not tell: where one part
/// stops short the next one begins.
fn within(parts: &[u8], lengths: &[u64]) -> Option<Within> {
    let mut each = apart(parts, lengths)?.into_iter().enumerate();
    each.find_map(|(part, bytes)| refused_field(bytes).map(|place| Within { part, place }))
}

/// Each part by itself; `None` where they aren't one to nine or their lengths don't add up to the slice.
fn apart<'a>(parts: &'a [u8], lengths: &[u64]) -> Option<Vec<&'a [u8]>> {
    let (mut each, mut rest) = (Vec::new(), parts);
    for length in lengths {
        let (part, behind) = rest.split_at_checked(usize::try_from(*length).ok()?)?;
        each.push(part);
        rest = behind;
    }
    (rest.is_empty() && (1..=9).contains(&each.len())).then_some(each)
}

/// Where a part has a field that is refused. Joined by itself, and into nothing, a part that has none
/// is refused for the output, or because it does not hold every number.
fn refused_field(part: &[u8]) -> Option<usize> {
    let raw::Joined { number, place, .. } = raw::join(part, &[part.len() as u64], &mut []);
    let of_no_field = [Refusal::OutputShort, Refusal::WrongStep].map(|refusal| (refusal.number(), 0));
    (!of_no_field.contains(&(number, place))).then_some(place)
}
