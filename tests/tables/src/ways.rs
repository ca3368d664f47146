//! Pools that break one clause of "A sound pool" and no other, in each way in which it can be
//! broken. Every event on them is answered 2, and they stay as they were.

use second::pool::{Entry, Link, Pool, Record};
use second::random::Random;
use second::sound::*;
use yuyarisun::{Lent, Pool as Owned, Refusal};

use crate::both::{event_of, hold, same};
use crate::ends;
use crate::lie::{
    broken, last_made_place, mark_tables, nth, sizes_in, written, Table, FLAGS, TABLES, UNUSED, ZEROS,
};
use crate::made::{any_link, any_record, count_anew, uncleared, Draft};
use crate::many;
use crate::reached::{kind, Reached, AT_THE_LARGEST, KINDS};
use crate::runs::{any_event, choose_sizes};
use crate::words::{packed, unpacked};

/// How a clause is broken, and how to make such a pool; `None` if what was thrown does not lend
/// itself to it.
pub struct Way {
    clauses: &'static [&'static str],
    words: &'static str,
    make: fn(&mut Random) -> Option<Lent>,
}

const fn way(
    clauses: &'static [&'static str],
    words: &'static str,
    make: fn(&mut Random) -> Option<Lent>,
) -> Way {
    Way { clauses, words, make }
}

#[rustfmt::skip]
pub const WAYS: &[Way] = &[
    way(&[FLAGS], "a snoop flag above 1", flag_above_1),
    way(&[UNUSED], "an unused bit of the used marks on", |random| unused_on("used", random)),
    way(&[UNUSED], "an unused bit of the held marks on", |random| unused_on("held", random)),
    way(&[UNUSED], "an unused bit of the candidate marks on", |random| unused_on("candidates", random)),
    way(&[UNUSED], "an unused bit of the changed marks on", |random| unused_on("changed", random)),
    way(&[PHASE_AND_POSITION], "a phase above 6", phase_above_6),
    way(&[PHASE_AND_POSITION], "a position of W or more in phases 1, 2, 4", position_past_the_workers),
    way(&[PHASE_AND_POSITION], "a position past the history in phase 3", |random| position_past_the_history(3, random)),
    way(&[PHASE_AND_POSITION], "a position past the history in phase 5", |random| position_past_the_history(5, random)),
    way(&[PHASE_AND_POSITION], "a position that is not 0 in phases 0, 6", position_not_0),
    way(&[HISTORY_BY_PHASE], "a history that is not empty in phases 0, 1, 6", history_not_empty),
    // No position is below 0, so the position is out of its range too.
    way(&[PHASE_AND_POSITION, HISTORY_BY_PHASE], "a history that is empty in phases 3, 5", history_empty),
    way(&[RECORD_NUMBERS], "a register that holds more than N", register_above_n),
    way(&[RECORD_NUMBERS], "a link whose mark is off and that holds more than N", |random| value_above_n(false, random)),
    way(&[RECORD_NUMBERS], "a link whose mark is on and that holds more than N", |random| value_above_n(true, random)),
    way(&[RECORD_NUMBERS], "an old value above N in a log", |random| old_above_n(logged, random)),
    way(&[RECORD_NUMBERS], "an old value above N in the history", |random| old_above_n(taken, random)),
    way(&[LINK_NUMBERS], "a link number of S or more in a log", |random| link_past_s(logged, random)),
    way(&[LINK_NUMBERS], "a link number of S or more in the history", |random| link_past_s(taken, random)),
    way(&[MAKERS], "a maker above W", maker_above_w),
    way(&[LIST_LENGTHS], "a log longer than S", log_longer_than_s),
    way(&[LIST_LENGTHS], "a history longer than S", history_longer_than_s),
    way(&[ZEROS], "a link number past a log's length", |random| past_a_log(0, random)),
    way(&[ZEROS], "an old value past a log's length", |random| past_a_log(1, random)),
    way(&[ZEROS], "a link number past the history's length", |random| past_the_history(0, random)),
    way(&[ZEROS], "an old value past the history's length", |random| past_the_history(1, random)),
    way(&[HISTORY_WITHOUT_REPEATS], "a link twice in the history", twice_in_the_history),
    way(&[MARKS_AND_ENTRIES], "a marked link that stands nowhere", marked_and_nowhere),
    way(&[MARKS_AND_ENTRIES], "a marked link twice in one log", |random| twice_in_the_logs(true, random)),
    way(&[MARKS_AND_ENTRIES], "a marked link in two logs", |random| twice_in_the_logs(false, random)),
    way(&[MARKS_AND_ENTRIES], "a marked link in a log and in the uncleared history", logged_and_uncleared),
    way(&[MARKS_AND_ENTRIES], "an unmarked link in a log", unmarked_in_a_log),
    way(&[MARKS_AND_ENTRIES], "an unmarked link in the uncleared history", unmarked_in_the_history),
    way(&[COUNTS], "a count that is one too high", |random| other_count(|count, _| count.checked_add(1), random)),
    way(&[COUNTS], "a count that is one too low", |random| other_count(|count, _| count.checked_sub(1), random)),
    way(&[COUNTS], "any other count", |random| other_count(|_, random| Some(random.number() as u16), random)),
    way(&[LAST_MADE], "a last made number above N", last_made_above_n),
];

fn alone(clause: &str) -> String {
    format!("broken alone: {clause}")
}

/// Every way, and every clause alone.
pub fn all_words() -> Vec<String> {
    let clauses = CLAUSES.into_iter().chain([FLAGS, UNUSED, ZEROS]).map(alone);
    let others = UNUSED_ON.into_iter().chain([AT_THE_LARGEST]).map(String::from);
    WAYS.iter().map(|way| way.words.into()).chain(clauses).chain(others).chain(ends::sizes()).collect()
}

/// Which unused bits of a word are on.
const UNUSED_ON: [&str; 3] =
    ["the lowest unused bit alone on", "the highest bit alone on of several unused", "every unused bit on"];

/// Which of these hold, of one table or another.
fn unused_bits(lent: &Lent) -> [bool; UNUSED_ON.len()] {
    let mut came = [false; UNUSED_ON.len()];
    for (_, words, marks) in mark_tables(lent) {
        let unused = unpacked(words).split_off(marks);
        let on = unused.iter().filter(|bit| **bit == 1).count();
        came[0] |= on == 1 && unused.first() == Some(&1);
        came[1] |= on == 1 && unused.len() > 1 && unused.last() == Some(&1);
        came[2] |= on > 1 && on == unused.len();
    }
    came
}

/// One pool for the way that the seed stands for, and each kind of event on it.
pub fn run(seed: u64, reached: &mut Reached) -> Result<(), String> {
    let way = &WAYS[(seed % WAYS.len() as u64) as usize];
    let mut random = Random::new(seed);
    let made = (0..2000).filter_map(|_| (way.make)(&mut random)).find(|lent| broken(lent) == way.clauses);
    let mut lent = made.ok_or_else(|| format!("no pool was made with {}", way.words))?;
    refused(&mut lent, Refusal::NotSound, &mut random, reached)
        .map_err(|told| format!("{}, {:?}: {told}", way.words, lent.sizes))?;
    reached.situation(way.words);
    if let [clause] = way.clauses {
        reached.situation(&alone(clause));
    }
    let unused = UNUSED_ON.into_iter().zip(unused_bits(&lent)).filter(|(_, came)| *came);
    unused.for_each(|(words, _)| reached.situation(words));
    reached.sizes(sizes_in(&lent));
    Ok(())
}

/// Each kind of event, and many at once, are refused so and leave the tables as they were; so are
/// the check and the type that owns tables.
pub fn refused(
    lent: &mut Lent,
    refusal: Refusal,
    random: &mut Random,
    reached: &mut Reached,
) -> Result<(), String> {
    let before = lent.clone();
    let sizes = sizes_in(lent);
    for number in 0..KINDS.len() {
        let event = any_event(number, sizes, random);
        let answer = lent.event(event_of(event));
        hold(answer == Err(refusal), || format!("{}: answered {answer:?} and not {refusal:?}", kind(event)))?;
        same(kind(event), &before, (&lent.tables, lent.collector))?;
        reached.refused += 1;
    }
    many::refused(lent, refusal, random)?;
    hold(!before.is_sound(), || "found sound".into())?;
    let owned = Owned::from_tables(before.sizes, before.tables, before.collector);
    hold(owned == Err(refusal), || "taken over, or refused otherwise".into())
}

fn sound_pool(random: &mut Random) -> Pool {
    Draft::thrown(random).pool(random)
}

/// A sound pool in one of these phases, with lists that are seldom empty.
fn in_phase(phases: &[u8], random: &mut Random) -> Draft {
    let (sizes, phase, filled) = (choose_sizes(random), random.pick(phases), random.pick(&[10, 50, 100]));
    Draft::any(sizes, phase, filled, random)
}

/// The counts follow what was changed.
fn counted(mut pool: Pool) -> Option<Lent> {
    count_anew(&mut pool);
    Some(written(&pool))
}

fn above(limit: u16, random: &mut Random) -> u16 {
    if random.percent(60) {
        limit + 1
    } else {
        random.between(limit + 1, u16::MAX)
    }
}

fn flag_above_1(random: &mut Random) -> Option<Lent> {
    let mut lent = written(&sound_pool(random));
    let at = random.below(lent.tables.snoops.len());
    lent.tables.snoops[at] = above(1, random);
    Some(lent)
}

/// The marks of a table stay as they are; of the bits behind them one is on, or all are.
fn unused_on(table: &str, random: &mut Random) -> Option<Lent> {
    let mut lent = written(&sound_pool(random));
    let (_, words, marks) = mark_tables(&lent).into_iter().find(|(name, ..)| *name == table)?;
    let mut bits = unpacked(words);
    let unused = &mut bits[marks..];
    let last = unused.len().checked_sub(1)?;
    match random.below(4) {
        0 => unused[0] = 1,
        1 => unused[last] = 1,
        2 => unused.fill(1),
        _ => unused[random.below(last)] = 1,
    }
    let which = TABLES.iter().position(|name| *name == table)?;
    if let Table::Marks(words) = nth(&mut lent.tables, which) {
        *words = packed(&bits);
    }
    Some(lent)
}

fn phase_above_6(random: &mut Random) -> Option<Lent> {
    let mut lent = written(&in_phase(&[0, 6], random).pool(random));
    lent.collector.phase = above(6, random);
    Some(lent)
}

fn position_past_the_workers(random: &mut Random) -> Option<Lent> {
    let mut lent = written(&in_phase(&[1, 2, 4], random).pool(random));
    lent.collector.position = above(lent.sizes.w - 1, random);
    Some(lent)
}

fn position_past_the_history(phase: u8, random: &mut Random) -> Option<Lent> {
    let mut draft = in_phase(&[phase], random);
    draft.position = above(draft.history.len() as u16 - 1, random).into();
    Some(written(&draft.pool(random)))
}

fn position_not_0(random: &mut Random) -> Option<Lent> {
    let mut lent = written(&in_phase(&[0, 6], random).pool(random));
    lent.collector.position = above(0, random);
    Some(lent)
}

fn history_not_empty(random: &mut Random) -> Option<Lent> {
    let mut draft = in_phase(&[4, 5], random);
    draft.phase = random.pick(&[0, 1, 6]);
    draft.position = 0;
    Some(written(&draft.pool(random)))
}

fn history_empty(random: &mut Random) -> Option<Lent> {
    let mut draft = in_phase(&[0, 6], random);
    draft.phase = random.pick(&[3, 5]);
    Some(written(&draft.pool(random)))
}

fn register_above_n(random: &mut Random) -> Option<Lent> {
    let mut lent = written(&sound_pool(random));
    let at = random.below(last_made_place(sizes_in(&lent)));
    lent.tables.registers[at] = above(lent.sizes.n, random);
    Some(lent)
}

fn last_made_above_n(random: &mut Random) -> Option<Lent> {
    let mut lent = written(&sound_pool(random));
    let at = last_made_place(sizes_in(&lent));
    lent.tables.registers[at] = above(lent.sizes.n, random);
    Some(lent)
}

fn value_above_n(marked: bool, random: &mut Random) -> Option<Lent> {
    let mut pool = sound_pool(random);
    let links: Vec<Link> = pool.sizes.links().filter(|link| pool.changed.contains(link) == marked).collect();
    let link = *links.get(random.below(links.len()))?;
    pool.values.insert(link, Record(above(pool.sizes.n, random)));
    counted(pool)
}

/// One of the logs.
fn logged<'a>(draft: &'a mut Draft, random: &mut Random) -> &'a mut Vec<Entry> {
    let w = random.below(draft.logs.len());
    &mut draft.logs[w]
}

/// The history.
fn taken<'a>(draft: &'a mut Draft, _: &mut Random) -> &'a mut Vec<Entry> {
    &mut draft.history
}

type List = for<'a> fn(&'a mut Draft, &mut Random) -> &'a mut Vec<Entry>;

fn old_above_n(list: List, random: &mut Random) -> Option<Lent> {
    let mut draft = Draft::thrown(random);
    let n = draft.sizes.n;
    let entries = list(&mut draft, random);
    let at = random.below(entries.len());
    entries.get_mut(at)?.old = Some(Record(above(n, random)));
    Some(written(&draft.pool(random)))
}

/// An entry's link is put into the tables as they lie: a number past S.
fn link_past_s(list: List, random: &mut Random) -> Option<Lent> {
    let mut draft = Draft::thrown(random);
    let (sizes, s) = (draft.sizes, draft.sizes.s());
    let entries = list(&mut draft, random);
    let at = random.below(entries.len() + 1);
    let none = Link::Board { entry: sizes.b.into() };
    entries.insert(at, Entry { link: none, old: any_record(sizes, 50, random) });
    if entries.len() > s {
        entries.remove((at + 1) % (s + 1));
    }
    let mut lent = written(&draft.pool(random));
    let past = above(s as u16 - 1, random);
    let rooms = [&mut lent.tables.logs, &mut lent.tables.history];
    let numbers = rooms.into_iter().flat_map(|room| room.iter_mut().step_by(2));
    numbers.filter(|number| usize::from(**number) == s).for_each(|number| *number = past);
    Some(lent)
}

fn maker_above_w(random: &mut Random) -> Option<Lent> {
    let mut lent = written(&sound_pool(random));
    let at = random.below(lent.tables.makers.len());
    lent.tables.makers[at] = above(lent.sizes.w, random);
    Some(lent)
}

/// The log holds every link, so that there is nothing past it to be read as an entry.
fn log_longer_than_s(random: &mut Random) -> Option<Lent> {
    let sizes = choose_sizes(random);
    let mut draft = Draft::any(sizes, random.pick(&[0, 1, 4, 5, 6]), 50, random);
    let w = random.below(usize::from(sizes.w));
    draft.logs.iter_mut().for_each(Vec::clear);
    draft.logs[w] = sizes.links().map(|link| Entry { link, old: any_record(sizes, 70, random) }).collect();
    let mut lent = written(&draft.pool(random));
    lent.tables.lengths[w] = above(sizes.s() as u16, random);
    Some(lent)
}

fn history_longer_than_s(random: &mut Random) -> Option<Lent> {
    let sizes = choose_sizes(random);
    let draft = Draft::any(sizes, random.pick(&[2, 3, 4, 5]), 100, random);
    let mut lent = written(&draft.pool(random));
    lent.tables.lengths[usize::from(sizes.w)] = above(sizes.s() as u16, random);
    Some(lent)
}

fn past(room: &mut [u16], length: u16, half: usize, random: &mut Random) -> Option<()> {
    let free = room.len() / 2 - usize::from(length);
    let at = usize::from(length) + random.below(free.checked_sub(1)? + 1);
    room[2 * at + half] = above(0, random);
    Some(())
}

fn past_a_log(half: usize, random: &mut Random) -> Option<Lent> {
    let mut lent = written(&sound_pool(random));
    let w = random.below(lent.tables.snoops.len());
    let room = 2 * lent.sizes.links();
    past(&mut lent.tables.logs[w * room..(w + 1) * room], lent.tables.lengths[w], half, random)?;
    Some(lent)
}

fn past_the_history(half: usize, random: &mut Random) -> Option<Lent> {
    let mut lent = written(&sound_pool(random));
    let length = lent.tables.lengths[lent.tables.snoops.len()];
    past(&mut lent.tables.history, length, half, random)?;
    Some(lent)
}

fn twice_in_the_history(random: &mut Random) -> Option<Lent> {
    let mut draft = in_phase(&[3, 4, 5], random);
    let mut entry = *draft.history.get(random.below(draft.history.len()))?;
    if random.percent(50) {
        entry.old = any_record(draft.sizes, 70, random);
    }
    let at = random.below(draft.history.len());
    draft.history.insert(if random.percent(50) { at } else { draft.history.len() }, entry);
    (draft.history.len() <= draft.sizes.s()).then(|| written(&draft.pool(random)))
}

fn marked_and_nowhere(random: &mut Random) -> Option<Lent> {
    let mut pool = sound_pool(random);
    let inserted = pool.changed.insert(any_link(pool.sizes, random));
    inserted.then(|| counted(pool)).flatten()
}

fn twice_in_the_logs(in_one: bool, random: &mut Random) -> Option<Lent> {
    let mut draft = Draft::thrown(random);
    let (from, to) = (random.below(draft.logs.len()), random.below(draft.logs.len()));
    let to = if in_one { from } else { to };
    let mut entry = *draft.logs[from].get(random.below(draft.logs[from].len()))?;
    if random.percent(50) {
        entry.old = any_record(draft.sizes, 70, random);
    }
    draft.logs[to].push(entry);
    let fits = draft.logs[to].len() <= draft.sizes.s() && (from == to) == in_one;
    fits.then(|| written(&draft.pool(random)))
}

fn logged_and_uncleared(random: &mut Random) -> Option<Lent> {
    let mut draft = in_phase(&[2, 3], random);
    let standing = uncleared(&draft);
    let entry = *standing.get(random.below(standing.len()))?;
    let s = draft.sizes.s();
    let log = logged(&mut draft, random);
    log.push(entry);
    (log.len() <= s).then(|| written(&draft.pool(random)))
}

fn unmarked_in_a_log(random: &mut Random) -> Option<Lent> {
    let mut pool = sound_pool(random);
    let links: Vec<Link> =
        pool.workers.iter().flat_map(|worker| &worker.log).map(|entry| entry.link).collect();
    pool.changed.remove(links.get(random.below(links.len()))?);
    counted(pool)
}

fn unmarked_in_the_history(random: &mut Random) -> Option<Lent> {
    let draft = in_phase(&[2, 3], random);
    let link = uncleared(&draft).get(random.below(uncleared(&draft).len()))?.link;
    let mut pool = draft.pool(random);
    pool.changed.remove(&link);
    counted(pool)
}

fn other_count(other: fn(u16, &mut Random) -> Option<u16>, random: &mut Random) -> Option<Lent> {
    let mut lent = written(&sound_pool(random));
    let at = random.below(lent.tables.counts.len());
    lent.tables.counts[at] = other(lent.tables.counts[at], random)?;
    Some(lent)
}
