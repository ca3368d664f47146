//! Whole traces: made and damaged ones, at the sizes of the program `replay` and at any others,
//! against the second program's replay and its report. How it ended and where, the lines, the numbers of
//! the cycles, the tables and the collector's record at the end are the same; so is what the types that
//! replay and report on tables of their own answer and print.

use second::event::Answer;
use second::maker::{make, make_of, Made};
use second::pool::{Pool, Sizes};
use second::random::Random;
use second::replay::replay;
use second::report::{report, Cycle, Cycles, Upon};
use second::tally::{cycles, sizes_fields, CYCLES, SIZES_FIELDS};
use second::trace::{in_range, replay_takes, well_formed, Field, Reader, Refusal};
use yuyarisun::{Lent, Replay, Report, Reported, Stop, Whole};

use crate::both::{answer_of, hold, same};
use crate::ends;
use crate::lie::{each, nth, sizes_in, sizes_of, written};
use crate::many::{one, stop_of};
use crate::reached::{Reached, AT_THE_LARGEST};
use crate::room;
use crate::runs::{choose_sizes, LARGEST};

const OTHER_SIZES: &str = "tables of other sizes";
const OTHER_SPLIT: &str = "tables of another K and B with the same lengths";
const OTHER_LENGTH: &str = "a table of another length";
const PRINTED: &str = "printed as the second program prints it";

/// What a trace may end with.
const NUMBERS: [u8; 8] = [0, 1, 7, 8, 9, 10, 11, 12];

pub fn all_words() -> Vec<String> {
    let others = [OTHER_SIZES, OTHER_SPLIT, OTHER_LENGTH, PRINTED, AT_THE_LARGEST];
    let rooms = room::WORDS.into_iter().chain(room::CYCLE_WORDS);
    let others = rooms.chain(others).chain(SIZES_FIELDS).chain(CYCLES);
    NUMBERS.map(answered).into_iter().chain(others.map(String::from)).chain(ends::sizes()).collect()
}

fn answered(number: u8) -> String {
    format!("a trace answered {number}")
}

/// What the second program makes of a trace: no pool if the sizes were not taken.
struct Expected {
    answers: Vec<Answer>,
    cycles: Vec<Cycle>,
    pool: Option<Pool>,
    stop: Option<Refusal>,
}

impl Expected {
    /// How the trace ends, in the words of the Rust crate.
    fn ending(&self) -> Result<Whole, Stop> {
        let events = self.answers.len();
        let free = self.pool.as_ref().map_or(0, |pool| pool.free_records() as u16);
        self.stop.map_or(Ok(Whole { events, free }), |stop| Err(stop_of(stop, events)))
    }
}

fn replayed(bytes: &[u8], takes: &dyn Fn(Sizes) -> bool, reached: &mut Reached) -> Expected {
    let mut reader = Reader::taking(bytes, takes);
    let (mut answers, mut closed, mut pool) = (Vec::new(), Vec::new(), None);
    let mut watched = Cycles::default();
    let stop = loop {
        match (reader.next_field(), &mut pool) {
            (Ok(Some(Field::Sizes { sizes, carries_b })), _) => {
                let said = SIZES_FIELDS.into_iter().zip(sizes_fields(sizes, carries_b));
                said.filter(|(_, came)| *came).for_each(|(words, _)| reached.situation(words));
                pool = Some(Pool::fresh(sizes));
            }
            (Ok(Some(Field::Event { event, .. })), Some(pool)) => {
                let upon = Upon::of(pool);
                answers.push(one(pool, event, reached));
                closed.extend(watched.event(upon, pool));
            }
            // The end field. No event comes before the sizes.
            (Ok(Some(_)), _) => {}
            (Ok(None), _) => break None,
            (Err(refusal), _) => break Some(refusal),
        }
    };
    for cycle in &closed {
        let came = CYCLES.into_iter().zip(cycles(cycle));
        came.filter(|(_, came)| *came).for_each(|(words, _)| reached.situation(words));
    }
    Expected { answers, cycles: closed, pool, stop }
}

/// The lengths of the tables fix N, W, R and S, and leave K and B open.
fn same_lengths(one: Sizes, other: Sizes) -> bool {
    [one.n, one.w, one.r] == [other.n, other.w, other.r] && one.s() == other.s()
}

/// Another K and B for as many links, if there are any.
fn split_otherwise(sizes: Sizes, random: &mut Random) -> Option<Sizes> {
    let others = (1..=LARGEST.k).filter_map(|k| {
        let b = sizes.s().checked_sub(usize::from(sizes.n) * usize::from(k))?;
        Some(Sizes { k, b: u16::try_from(b).ok()?, ..sizes })
    });
    let others: Vec<Sizes> = others.filter(|other| in_range(*other) && *other != sizes).collect();
    (!others.is_empty()).then(|| random.pick(&others))
}

/// At the program's sizes, or at any others.
fn made(seed: u64, random: &mut Random) -> Made {
    if random.percent(50) {
        return make(seed);
    }
    let sizes = choose_sizes(random);
    make_of(seed, sizes, 20 + random.below(200))
}

/// Tables with anything in them, and a collector's record that may be nonsense.
fn spoilt(sizes: Sizes, random: &mut Random) -> Lent {
    let mut lent = written(&Pool::fresh(sizes));
    each(&mut lent.tables).into_iter().for_each(|mut table| table.spoil(random));
    let collector = &mut lent.collector;
    for number in [&mut collector.phase, &mut collector.position, &mut collector.closed] {
        *number = random.number() as u16;
    }
    lent
}

pub fn run(seed: u64, reached: &mut Reached) -> Result<(), String> {
    let mut random = Random::new(seed);
    let bytes = made(seed, &mut random).trace;
    let own = match well_formed(&bytes) {
        Some(Field::Sizes { sizes, .. }) if in_range(sizes) => Some(sizes),
        _ => None,
    };
    let otherwise = own.filter(|_| random.percent(10)).and_then(|own| split_otherwise(own, &mut random));
    let sizes = otherwise.or(own).filter(|_| random.percent(95));
    let sizes = sizes.unwrap_or_else(|| choose_sizes(&mut random));
    let mut lent = spoilt(sizes, &mut random);
    let exact = random.percent(97);
    if !exact {
        let mut table = nth(&mut lent.tables, random.below(12));
        table.resize(table.len() + 1 - 2 * random.below(2));
    }
    // These are not looked at.
    if random.percent(10) {
        lent.sizes = sizes_of(choose_sizes(&mut random));
    }
    let told = |told: String| format!("{sizes:?}, {} bytes: {told}", bytes.len());

    let takes = |own| exact && in_range(own) && same_lengths(own, sizes);
    let expected = replayed(&bytes, &takes, reached);
    lends_to_report(lent.clone(), &bytes, &expected, &mut random, reached).map_err(told)?;
    lends(lent, &bytes, &expected, &mut random, reached).map_err(told)?;
    let (replayed, reported) = (yuyarisun::replay(&bytes), yuyarisun::report(&bytes));
    if own.is_some_and(|own| takes(own) && own != sizes) {
        reached.situation(OTHER_SPLIT);
    }
    if own.is_some_and(|own| !takes(own)) {
        reached.situation(if exact { OTHER_SIZES } else { OTHER_LENGTH });
        let expected = self::replayed(&bytes, &in_range, &mut Reached::default());
        owns(&replayed, &reported, &expected).map_err(told)?;
    } else {
        owns(&replayed, &reported, &expected).map_err(told)?;
    }
    // Where the limits of `replay` are not what refuses the trace.
    if own.is_none_or(replay_takes) {
        let mut printed = Vec::new();
        replay(&bytes, &mut printed, None).map_err(|error| error.to_string())?;
        hold(replayed.to_string().into_bytes() == printed, || told("prints otherwise".into()))?;
        printed.clear();
        report(&bytes, &mut printed).map_err(|error| error.to_string())?;
        hold(reported.to_string().into_bytes() == printed, || told("reports otherwise".into()))?;
        reached.situation(PRINTED);
    }
    Ok(())
}

/// The call on lent tables.
fn lends(
    mut lent: Lent,
    bytes: &[u8],
    expected: &Expected,
    random: &mut Random,
    reached: &mut Reached,
) -> Result<(), String> {
    let before = lent.clone();
    let (empty, room_words) = room::any(expected.answers.len(), random);
    let mut room = empty.clone();
    let found = lent.trace(bytes, &mut room);
    let result = expected.ending();
    hold(found == result, || format!("answered {found:?} and not {result:?}"))?;
    room::same(&room::put(empty, &expected.answers), &room)?;
    left("trace", &before, &lent, expected)?;
    reached.situation(&answered(expected.stop.map_or(0, |stop| stop.number)));
    reached.situation(room_words);
    if let Some(pool) = &expected.pool {
        reached.sizes(pool.sizes);
    }
    Ok(())
}

/// The call for the cycles on lent tables.
fn lends_to_report(
    mut lent: Lent,
    bytes: &[u8],
    expected: &Expected,
    random: &mut Random,
    reached: &mut Reached,
) -> Result<(), String> {
    let before = lent.clone();
    let (empty, room_words) = room::any_for_cycles(expected.cycles.len(), random);
    let mut room = empty.clone();
    let found = lent.report(bytes, &mut room);
    let result = Reported { cycles: expected.cycles.len(), ending: expected.ending() };
    hold(found == result, || format!("report: answered {found:?} and not {result:?}"))?;
    room::same(&room::put_cycles(empty, &expected.cycles), &room)?;
    reached.situation(room_words);
    left("report", &before, &lent, expected)
}

/// What a call leaves on lent tables.
fn left(who: &str, before: &Lent, found: &Lent, expected: &Expected) -> Result<(), String> {
    let after = expected.pool.as_ref().map_or_else(|| before.clone(), written);
    same(who, &after, (&found.tables, found.collector))?;
    let sizes = expected.pool.as_ref().map_or(before.sizes, |pool| sizes_of(pool.sizes));
    hold(found.sizes == sizes, || format!("{who}: the sizes are {:?} and should be {sizes:?}", found.sizes))
}

/// The replay and the report on tables of their own.
fn owns(found: &Replay, reported: &Report, expected: &Expected) -> Result<(), String> {
    let cycles = expected.cycles.iter().map(|cycle| yuyarisun::Cycle {
        taken: cycle.taken as u64,
        freed: cycle.freed as u64,
        net: cycle.net as i32,
    });
    hold(reported.cycles.iter().copied().eq(cycles), || "report: other cycles".into())?;
    hold(reported.ending == found.ending, || "report: another ending than of the replay".into())?;
    let answers: Vec<_> = expected.answers.iter().copied().map(answer_of).collect();
    hold(found.answers == answers, || "replay: other answers".into())?;
    match (&found.ending, expected.stop, &expected.pool) {
        (Ok(found), None, Some(pool)) => same("replay", &written(pool), (found.tables(), found.collector())),
        (Err(found), Some(stop), _) => {
            let stop = stop_of(stop, expected.answers.len());
            hold(*found == stop, || format!("replay: {found:?} and not {stop:?}"))
        }
        _ => Err("replay: whole or refused, and not as the second program has it".into()),
    }
}

/// A trace without events, of the sizes that tables of other lengths come with: answered 1 at its
/// beginning.
pub fn refused(lent: &mut Lent) -> Result<(), String> {
    let before = lent.clone();
    let fields = [Field::of_sizes(sizes_in(lent)), Field::End { count: 0 }];
    let bytes: Vec<u8> = fields.iter().flat_map(Field::bytes).collect();
    let (mut room, expected) = ([1, 2, 3], stop_of(Refusal { number: 1, offset: 0 }, 0));
    let found = lent.trace(&bytes, &mut room);
    hold(found == Err(expected), || format!("trace: answered {found:?} and not {expected:?}"))?;
    hold(room == [1, 2, 3], || "trace: answers where there is no event".into())?;
    same("trace", &before, (&lent.tables, lent.collector))?;
    let (mut room, expected) = ([1, 2, 3], Reported { cycles: 0, ending: Err(expected) });
    let found = lent.report(&bytes, &mut room);
    hold(found == expected, || format!("report: answered {found:?} and not {expected:?}"))?;
    hold(room == [1, 2, 3], || "report: numbers where there is no cycle".into())?;
    same("report", &before, (&lent.tables, lent.collector))
}
