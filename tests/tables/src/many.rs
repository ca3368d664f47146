//! Many events at once: event fields on any sound pool, harmed or not, against the second program
//! event by event. What stopped them, where, how many were done, their answers, the last step
//! number and every table entry are the same.

use second::event::{happen, Answer, Event};
use second::pool::Pool;
use second::random::Random;
use second::trace::{Field, Kind, Reader, Refusal};
use yuyarisun::{Lent, Stop};

use crate::both::{answer_of, event_of, hold, same};
use crate::ends;
use crate::lie::{sizes_in, sizes_of, written};
use crate::made::Draft;
use crate::reached::{Reached, Upon, AT_THE_LARGEST};
use crate::room;
use crate::runs::{any_event, choose_sizes, COLLECT};

const IN_PIECES: &str = "given in two pieces";
const LAST_STEP: &str = "nothing follows step 4,294,967,295";

/// What many events may be stopped by; 1 and 2 are held in the parts of such tables.
const NUMBERS: [u8; 6] = [0, 7, 8, 9, 10, 12];

pub fn all_words() -> Vec<String> {
    let numbers = NUMBERS.map(answered);
    let harms = Harm::ALL.into_iter().map(Harm::words).chain(room::WORDS).chain([
        IN_PIECES,
        LAST_STEP,
        AT_THE_LARGEST,
    ]);
    numbers.into_iter().chain(harms.map(String::from)).chain(ends::sizes()).collect()
}

fn answered(number: u8) -> String {
    format!("many events answered {number}")
}

/// What the second program makes of many events.
struct Expected {
    answers: Vec<Answer>,
    stop: Option<Refusal>,
    step: u32,
}

/// The events up to the first field that is none. An end field that would be right in a trace is
/// answered 7.
fn done(pool: &mut Pool, bytes: &[u8], step: u32, reached: &mut Reached) -> Expected {
    let mut reader = Reader::behind(bytes, step);
    let mut answers = Vec::new();
    loop {
        let (offset, step) = reader.at();
        if offset == bytes.len() {
            return Expected { answers, stop: None, step };
        }
        let stop = match reader.next_field() {
            Ok(Some(Field::Event { event, .. })) => {
                answers.push(one(pool, event, reached));
                continue;
            }
            Ok(_) => Refusal { number: 7, offset },
            Err(refusal) => refusal,
        };
        return Expected { answers, stop: Some(stop), step };
    }
}

/// One event by the second program.
pub fn one(pool: &mut Pool, event: Event, reached: &mut Reached) -> Answer {
    let upon = Upon::of(pool, event);
    let answer = happen(pool, event);
    reached.event(event, upon, answer.number);
    answer
}

/// A refusal as the library gives it.
pub fn stop_of(refusal: Refusal, events: usize) -> Stop {
    let number = yuyarisun::Refusal::of_number(refusal.number.into());
    Stop { refusal: number.expect("a field's refusal has a number"), place: refusal.offset, events }
}

/// What is done to the bytes of the events.
#[derive(Clone, Copy, PartialEq, Eq)]
enum Harm {
    None,
    Cut,
    CutBetweenFields,
    Extended,
    Flipped,
    TagAltered,
    LengthAltered,
    StepAltered,
    End,
    EndWithAnotherCount,
    Sizes,
    Noise,
    Nothing,
}

impl Harm {
    const ALL: [Harm; 13] = [
        Harm::None,
        Harm::Cut,
        Harm::CutBetweenFields,
        Harm::Extended,
        Harm::Flipped,
        Harm::TagAltered,
        Harm::LengthAltered,
        Harm::StepAltered,
        Harm::End,
        Harm::EndWithAnotherCount,
        Harm::Sizes,
        Harm::Noise,
        Harm::Nothing,
    ];

    fn words(self) -> &'static str {
        match self {
            Harm::None => "nothing but events",
            Harm::Cut => "cut anywhere",
            Harm::CutBetweenFields => "cut between two fields",
            Harm::Extended => "bytes behind the events",
            Harm::Flipped => "bits flipped",
            Harm::TagAltered => "a tag altered",
            Harm::LengthAltered => "a length altered",
            Harm::StepAltered => "a step number altered",
            Harm::End => "an end field with the right count",
            Harm::EndWithAnotherCount => "an end field with another count",
            Harm::Sizes => "a sizes field",
            Harm::Noise => "bytes at random",
            Harm::Nothing => "no bytes",
        }
    }

    /// The bytes of events of which the last has this step number. What needs an event to be done
    /// to is not done where there is none.
    fn done_to(self, mut parts: Vec<Vec<u8>>, last: u32, random: &mut Random) -> Vec<u8> {
        let any = random.below(parts.len());
        match (self, parts.get_mut(any)) {
            (Harm::CutBetweenFields, _) => parts.truncate(any),
            (Harm::Extended, _) => parts.push(noise(random)),
            (Harm::TagAltered, Some(part)) => {
                let tag = random.byte();
                part[0] = random.pick(&[0x01, 0x7F, 0x10, 0x14, 0x15, 0x16, 0x17, 0x20, 0, tag]);
            }
            (Harm::LengthAltered, Some(part)) => {
                let kind = random.pick(&Kind::ALL);
                let length = random.pick(kind.lengths()) as u16;
                let length = random.pick(&[length, length << 8, 0, 256 + length]);
                part[1..3].copy_from_slice(&length.to_be_bytes());
            }
            (Harm::StepAltered, Some(part)) => part[3 + random.below(4)] ^= 1 << random.below(8),
            (Harm::End, _) => parts.push(Field::End { count: last }.bytes()),
            (Harm::EndWithAnotherCount, _) => {
                parts.insert(any, Field::End { count: last ^ (1 << random.below(32)) }.bytes());
            }
            (Harm::Sizes, _) => parts.insert(any, Field::of_sizes(choose_sizes(random)).bytes()),
            (Harm::Noise, _) => return noise(random),
            (Harm::Nothing, _) => return Vec::new(),
            _ => {}
        }
        let mut bytes = parts.concat();
        match self {
            Harm::Cut => bytes.truncate(random.below(bytes.len())),
            Harm::Flipped if !bytes.is_empty() => {
                for _ in 0..1 + random.below(3) {
                    let at = random.below(bytes.len());
                    bytes[at] ^= 1 << random.below(8);
                }
            }
            _ => {}
        }
        bytes
    }
}

fn noise(random: &mut Random) -> Vec<u8> {
    (0..1 + random.below(30)).map(|_| random.byte()).collect()
}

/// A sound pool and some events for it.
fn some(random: &mut Random) -> (Pool, Vec<Event>) {
    let pool = match random.percent(30) {
        true => Pool::fresh(choose_sizes(random)),
        false => Draft::thrown(random).pool(random),
    };
    let (most, collecting) = (random.pick(&[1, 5, 40]), random.pick(&[10, 40, 80]));
    let events = (0..random.below(most + 1)).map(|_| {
        let kind = if random.percent(collecting) { COLLECT } else { random.below(COLLECT) };
        any_event(kind, pool.sizes, random)
    });
    let events = events.collect();
    (pool, events)
}

/// Each event's field, the first with the step number behind `step`. Nothing follows the largest:
/// there the steps go on at 0.
fn fields(events: &[Event], step: u32) -> Vec<Vec<u8>> {
    let steps = (1..).map(|further| step.wrapping_add(further));
    steps.zip(events).map(|(step, event)| Field::Event { step, event: *event }.bytes()).collect()
}

pub fn run(seed: u64, reached: &mut Reached) -> Result<(), String> {
    let mut random = Random::new(seed);
    let (mut pool, events) = some(&mut random);
    let before = written(&pool);
    let any = random.number() as u32;
    let step = random.pick(&[0, 0, 1, 255, 65_535, any, u32::MAX - 3, u32::MAX]);
    let harm = if random.percent(40) { Harm::None } else { random.pick(&Harm::ALL) };
    let last = step.wrapping_add(events.len() as u32);
    let parts = fields(&events, step);
    let bytes = harm.done_to(parts.clone(), last, &mut random);
    let told = |told: String| {
        format!("{:?}, step {step}, {}, bytes {bytes:02X?}: {told}", before.sizes, harm.words())
    };

    let expected = done(&mut pool, &bytes, step, reached);
    let (empty, room_words) = room::any(expected.answers.len(), &mut random);
    let mut room = empty.clone();
    let (mut lent, mut step_after) = (before.clone(), step);
    let found = lent.events(&bytes, &mut step_after, &mut room);
    let count = expected.answers.len();
    let result = expected.stop.map_or(Ok(count), |stop| Err(stop_of(stop, count)));
    hold(found == result, || told(format!("answered {found:?} and not {result:?}")))?;
    hold(step_after == expected.step, || told(format!("step {step_after} and not {}", expected.step)))?;
    room::same(&room::put(empty, &expected.answers), &room).map_err(told)?;
    let after = written(&pool);
    same("many events", &after, (&lent.tables, lent.collector)).map_err(told)?;
    hold(lent.sizes == before.sizes, || told("the sizes are others".into()))?;

    if harm == Harm::None {
        owned(&before, &events[..count], &expected.answers, &after).map_err(told)?;
        if expected.stop.is_none() && count > 1 {
            in_pieces(before.clone(), &parts, random.below(count), step, &lent).map_err(told)?;
            reached.situation(IN_PIECES);
        }
        if expected.step == u32::MAX && expected.stop.is_some() {
            reached.situation(LAST_STEP);
        }
    }
    reached.situation(&answered(expected.stop.map_or(0, |stop| stop.number)));
    reached.situation(harm.words());
    reached.situation(room_words);
    reached.sizes(pool.sizes);
    Ok(())
}

/// The type that owns its tables is answered the same.
fn owned(before: &Lent, events: &[Event], answers: &[Answer], after: &Lent) -> Result<(), String> {
    let mut pool = yuyarisun::Pool::from_tables(before.sizes, before.tables.clone(), before.collector)
        .map_err(|refusal| format!("tables of a sound pool are refused: {refusal}"))?;
    let found = pool.run(events.iter().copied().map(event_of));
    let expected: Vec<_> = answers.iter().copied().map(answer_of).collect();
    hold(found == expected, || format!("run: answered {found:?} and not {expected:?}"))?;
    same("run", after, (pool.tables(), pool.collector()))
}

/// So many of the events, and then the others with the step number that the first call left.
fn in_pieces(mut lent: Lent, parts: &[Vec<u8>], first: usize, step: u32, whole: &Lent) -> Result<(), String> {
    let mut step = step;
    for piece in [&parts[..first], &parts[first..]] {
        let found = lent.events(&piece.concat(), &mut step, &mut []);
        hold(found == Ok(piece.len()), || format!("a piece is answered {found:?}"))?;
    }
    same("in pieces", whole, (&lent.tables, lent.collector))
}

/// On tables that every call refuses so: at place 0, with nothing done.
pub fn refused(lent: &mut Lent, refusal: yuyarisun::Refusal, random: &mut Random) -> Result<(), String> {
    let before = lent.clone();
    let sizes = sizes_in(lent);
    let events: Vec<Event> = (0..random.below(4)).map(|kind| any_event(kind, sizes, random)).collect();
    let (mut room, _) = room::any(events.len(), random);
    let empty = room.clone();
    let mut step = 7;
    let found = lent.events(&fields(&events, step).concat(), &mut step, &mut room);
    let expected = Stop { refusal, place: 0, events: 0 };
    hold(found == Err(expected), || format!("many events: answered {found:?} and not {expected:?}"))?;
    hold(step == 7, || format!("many events: step {step} and not 7"))?;
    room::same(&empty, &room)?;
    hold(sizes_of(sizes) == lent.sizes, || "many events: the sizes are others".into())?;
    same("many events", &before, (&lent.tables, lent.collector))
}
