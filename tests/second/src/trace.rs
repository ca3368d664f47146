//! "The trace file" of document 01, with document 02's board: the fields, and "Order for a field".

use crate::event::Event;
use crate::pool::Sizes;

#[derive(Clone, Copy, Debug, PartialEq, Eq)]
pub enum Field {
    /// "The sizes field with length 10 carries B at its end; length 8 means B = 0" (document 02,
    /// request 5).
    Sizes {
        sizes: Sizes,
        carries_b: bool,
    },
    Event {
        step: u32,
        event: Event,
    },
    End {
        count: u32,
    },
}

/// What a field's tag says it is.
#[derive(Clone, Copy, Debug, PartialEq, Eq)]
pub enum Kind {
    Sizes,
    Make,
    Move,
    Drop,
    Load,
    Store,
    Look,
    Post,
    Collect,
    End,
}

impl Kind {
    pub const ALL: [Kind; 10] = [
        Kind::Sizes,
        Kind::Make,
        Kind::Move,
        Kind::Drop,
        Kind::Load,
        Kind::Store,
        Kind::Look,
        Kind::Post,
        Kind::Collect,
        Kind::End,
    ];

    /// The event's name in the documents, and those of the two other fields.
    pub fn name(self) -> &'static str {
        match self {
            Kind::Sizes => "sizes",
            Kind::Make => "make",
            Kind::Move => "move",
            Kind::Drop => "drop",
            Kind::Load => "load",
            Kind::Store => "store",
            Kind::Look => "look",
            Kind::Post => "post",
            Kind::Collect => "collect",
            Kind::End => "end",
        }
    }

    pub fn tag(self) -> u8 {
        match self {
            Kind::Sizes => 0x01,
            Kind::Make => 0x10,
            Kind::Move => 0x11,
            Kind::Drop => 0x12,
            Kind::Load => 0x13,
            Kind::Store => 0x14,
            Kind::Look => 0x15,
            Kind::Post => 0x16,
            Kind::Collect => 0x20,
            Kind::End => 0x7F,
        }
    }

    /// The lengths that the tag takes: one, but for the sizes.
    pub fn lengths(self) -> &'static [usize] {
        match self {
            Kind::Sizes => &[8, 10],
            Kind::Load | Kind::Store => &[8],
            Kind::Move | Kind::Look | Kind::Post => &[7],
            Kind::Make | Kind::Drop => &[6],
            Kind::Collect | Kind::End => &[4],
        }
    }

    /// The length that the tag asks for; of the sizes the one without B.
    pub fn length(self) -> usize {
        self.lengths()[0]
    }

    pub fn of_tag(tag: u8) -> Option<Kind> {
        Kind::ALL.into_iter().find(|kind| kind.tag() == tag)
    }

    /// The event of this kind with the numbers given, if it is an event's kind and they are as
    /// many as it takes.
    pub fn event(self, numbers: &[u8]) -> Option<Event> {
        match (self, numbers) {
            (Kind::Make, &[w, r]) => Some(Event::Make { w, r }),
            (Kind::Move, &[w, r, q]) => Some(Event::Move { w, r, q }),
            (Kind::Drop, &[w, r]) => Some(Event::Drop { w, r }),
            (Kind::Load, &[w, r, q, f]) => Some(Event::Load { w, r, q, f }),
            (Kind::Store, &[w, q, f, r]) => Some(Event::Store { w, q, f, r }),
            (Kind::Look, &[w, r, e]) => Some(Event::Look { w, r, e }),
            (Kind::Post, &[w, e, r]) => Some(Event::Post { w, e, r }),
            (Kind::Collect, &[]) => Some(Event::Collect),
            _ => None,
        }
    }
}

impl Event {
    pub fn kind(&self) -> Kind {
        match self {
            Event::Make { .. } => Kind::Make,
            Event::Move { .. } => Kind::Move,
            Event::Drop { .. } => Kind::Drop,
            Event::Load { .. } => Kind::Load,
            Event::Store { .. } => Kind::Store,
            Event::Look { .. } => Kind::Look,
            Event::Post { .. } => Kind::Post,
            Event::Collect => Kind::Collect,
        }
    }

    /// The numbers after the step number, "one byte each", in the trace's order.
    pub fn numbers(&self) -> Vec<u8> {
        match *self {
            Event::Make { w, r } | Event::Drop { w, r } => vec![w, r],
            Event::Move { w, r, q } => vec![w, r, q],
            Event::Load { w, r, q, f } => vec![w, r, q, f],
            Event::Store { w, q, f, r } => vec![w, q, f, r],
            Event::Look { w, r, e } => vec![w, r, e],
            Event::Post { w, e, r } => vec![w, e, r],
            Event::Collect => vec![],
        }
    }
}

impl Field {
    /// Sizes as most traces say them: B where there is a board.
    pub fn of_sizes(sizes: Sizes) -> Field {
        Field::Sizes { sizes, carries_b: sizes.b > 0 }
    }

    pub fn kind(&self) -> Kind {
        match self {
            Field::Sizes { .. } => Kind::Sizes,
            Field::Event { event, .. } => event.kind(),
            Field::End { .. } => Kind::End,
        }
    }

    /// "Fields: tag one byte, length two bytes, payload; all numbers most significant byte first."
    pub fn bytes(&self) -> Vec<u8> {
        let payload: Vec<u8> = match self {
            Field::Sizes { sizes: Sizes { n, k, w, r, b }, carries_b } => {
                let all = [n, k, w, r].into_iter().chain(carries_b.then_some(b));
                all.flat_map(|size| size.to_be_bytes()).collect()
            }
            Field::Event { step, event } => step.to_be_bytes().into_iter().chain(event.numbers()).collect(),
            Field::End { count } => count.to_be_bytes().to_vec(),
        };
        let mut bytes = vec![self.kind().tag()];
        bytes.extend((payload.len() as u16).to_be_bytes());
        bytes.extend(payload);
        bytes
    }
}

/// "Order for a field: fewer than three bytes left 9; 7; 8; payload not whole 9": the kind and
/// the payload of the field that `rest` begins with, or the number it is refused with.
/// `may_stand` says whether a field of this kind may stand here.
fn split(rest: &[u8], may_stand: impl Fn(Kind) -> bool) -> Result<(Kind, &[u8]), u8> {
    let &[tag, high, low, ref after @ ..] = rest else {
        return Err(9);
    };
    let kind = Kind::of_tag(tag).filter(|kind| may_stand(*kind)).ok_or(7)?;
    let length = usize::from(u16::from_be_bytes([high, low]));
    if !kind.lengths().contains(&length) {
        return Err(8);
    }
    let payload = after.get(..length).ok_or(9)?;
    Ok((kind, payload))
}

/// "01: N, K, W, R, two bytes each", and B. "Events begin with a four-byte step number, then one byte
/// each. 7F: number of events, four bytes." The payload has a length of the kind's.
fn meaning(kind: Kind, payload: &[u8]) -> Option<Field> {
    if kind == Kind::Sizes {
        return sizes_of(payload);
    }
    let (number, others) = payload.split_first_chunk::<4>()?;
    let number = u32::from_be_bytes(*number);
    match kind {
        Kind::End => Some(Field::End { count: number }),
        _ => Some(Field::Event { step: number, event: kind.event(others)? }),
    }
}

fn sizes_of(payload: &[u8]) -> Option<Field> {
    let sizes: Vec<u16> = payload.chunks_exact(2).map(|two| u16::from_be_bytes([two[0], two[1]])).collect();
    match sizes[..] {
        [n, k, w, r] => Some(Field::Sizes { sizes: Sizes { n, k, w, r, b: 0 }, carries_b: false }),
        [n, k, w, r, b] => Some(Field::Sizes { sizes: Sizes { n, k, w, r, b }, carries_b: true }),
        _ => None,
    }
}

/// The field that `rest` begins with, wherever it may stand and whatever its numbers say.
pub fn well_formed(rest: &[u8]) -> Option<Field> {
    let (kind, payload) = split(rest, |_| true).ok()?;
    meaning(kind, payload)
}

/// A trace is refused: the answer number, and "the offset of the field's tag or where it would
/// stand (11: of the extra byte)".
#[derive(Clone, Copy, Debug, PartialEq, Eq)]
pub struct Refusal {
    pub number: u8,
    pub offset: usize,
}

/// Reads a trace field by field.
pub struct Reader<'a> {
    trace: &'a [u8],
    takes: &'a dyn Fn(Sizes) -> bool,
    numbering: Numbering,
    offset: usize,
    last_step: u32,
    /// How many events were read.
    events: u32,
    /// The sizes were read.
    sized: bool,
    ended: bool,
}

/// What step numbers and the end field's count are asked to be.
#[derive(Clone, Copy, PartialEq, Eq)]
enum Numbering {
    /// Document 01: "10: step number not the previous plus one. 12: end field's count is not the last
    /// step number."
    Trace,
    /// Request 3 of document 02: "10 now means not above the part's previous number (0 before the
    /// first) and 12 a wrong count of its events."
    Part,
}

impl<'a> Reader<'a> {
    /// With the limits of `replay`.
    pub fn new(trace: &'a [u8]) -> Reader<'a> {
        Reader::taking(trace, &replay_takes)
    }

    /// With others.
    pub fn taking(trace: &'a [u8], takes: &'a dyn Fn(Sizes) -> bool) -> Reader<'a> {
        let numbering = Numbering::Trace;
        Reader { trace, takes, numbering, offset: 0, last_step: 0, events: 0, sized: false, ended: false }
    }

    /// A part of a trace, with the ranges of document 01's section "Sizes".
    pub fn of_part(part: &'a [u8]) -> Reader<'a> {
        Reader { numbering: Numbering::Part, ..Reader::taking(part, &in_range) }
    }

    /// What comes behind the sizes and the event with this step number.
    pub fn behind(trace: &'a [u8], last_step: u32) -> Reader<'a> {
        Reader { last_step, sized: true, ..Reader::new(trace) }
    }

    /// Where the next field begins, and the last step number.
    pub fn at(&self) -> (usize, u32) {
        (self.offset, self.last_step)
    }

    /// The next field that is taken; nothing after a whole trace.
    pub fn next_field(&mut self) -> Result<Option<Field>, Refusal> {
        let refused = |number| Refusal { number, offset: self.offset };
        let rest = &self.trace[self.offset..];
        if self.ended {
            return nothing_after_the_end(rest).map_err(refused);
        }
        let field = self.read(rest).map_err(refused)?;
        self.offset += field.bytes().len();
        match field {
            Field::Sizes { .. } => self.sized = true,
            Field::Event { step, .. } => {
                self.last_step = step;
                self.events += 1;
            }
            Field::End { .. } => self.ended = true,
        }
        Ok(Some(field))
    }

    /// "Order for a field: fewer than three bytes left 9; 7; 8; payload not whole 9; then 1 for
    /// sizes, 10 for an event, 12 for the end."
    fn read(&self, rest: &[u8]) -> Result<Field, u8> {
        let (kind, payload) = split(rest, |kind| self.may_stand(kind))?;
        let field = meaning(kind, payload).ok_or(8)?;
        match field {
            Field::Sizes { sizes, .. } if !(self.takes)(sizes) => Err(1),
            Field::Event { step, .. } if !self.follows(step) => Err(10),
            Field::End { count } if count != self.count() => Err(12),
            _ => Ok(field),
        }
    }

    fn follows(&self, step: u32) -> bool {
        match self.numbering {
            Numbering::Trace => self.last_step.checked_add(1) == Some(step),
            Numbering::Part => step > self.last_step,
        }
    }

    /// What the end field has to say.
    fn count(&self) -> u32 {
        match self.numbering {
            Numbering::Trace => self.last_step,
            Numbering::Part => self.events,
        }
    }

    /// "7: tag unknown, first field not the sizes, or sizes a second time": the sizes stand first
    /// and nowhere else.
    fn may_stand(&self, kind: Kind) -> bool {
        (kind == Kind::Sizes) != self.sized
    }
}

/// "11: a byte after the end field."
fn nothing_after_the_end(rest: &[u8]) -> Result<Option<Field>, u8> {
    if rest.is_empty() {
        Ok(None)
    } else {
        Err(11)
    }
}

/// The largest sizes of `replay`: "N up to 64, K up to 4, W up to 4, R up to 8", "B up to 8".
pub const LARGEST: Sizes = Sizes { n: 64, k: 4, w: 4, r: 8, b: 8 };

/// "it takes N up to 64, K up to 4, W up to 4, R up to 8, and answers 1 beyond." "`replay` takes B up
/// to 8" (document 02, request 5).
pub fn replay_takes(sizes: Sizes) -> bool {
    within(LARGEST, sizes)
}

/// The largest sizes of all.
pub const LARGEST_OF_ALL: Sizes = Sizes { n: 1024, k: 8, w: 8, r: 16, b: 16 };

/// "N records 1..1024, K links in each 1..8, W workers 1..8, R registers per worker 1..16." "B
/// entries, 0 to 16."
pub fn in_range(sizes: Sizes) -> bool {
    within(LARGEST_OF_ALL, sizes)
}

fn within(most: Sizes, sizes: Sizes) -> bool {
    let pairs = [(sizes.n, most.n), (sizes.k, most.k), (sizes.w, most.w), (sizes.r, most.r)];
    pairs.into_iter().all(|(size, largest)| (1..=largest).contains(&size)) && sizes.b <= most.b
}
