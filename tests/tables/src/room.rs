//! The slices that a caller lends for the answers of many events, a number and a value for each, and for
//! the cycles of a trace, three numbers for each: of any length, with anything in them. What goes there
//! goes in turn, as far as there is room for all of one.

use second::event::Answer;
use second::pool::Record;
use second::random::Random;
use second::report::Cycle;

pub const WORDS: [&str; 5] = [
    "room for no answer",
    "room for some answers",
    "room for some answers and half of one",
    "room for all answers",
    "room to spare",
];

pub const CYCLE_WORDS: [&str; 5] = [
    "room for no cycle",
    "room for some cycles",
    "room for some cycles and a part of one",
    "room for all cycles",
    "room to spare for cycles",
];

/// Room for the answers of so many events, or for fewer or more.
pub fn any(events: usize, random: &mut Random) -> (Vec<u16>, &'static str) {
    let (length, words) = length_and_words(events, 2, WORDS, random);
    ((0..length).map(|_| random.number() as u16).collect(), words)
}

/// Room for so many cycles, or for fewer or more.
pub fn any_for_cycles(cycles: usize, random: &mut Random) -> (Vec<i64>, &'static str) {
    let (length, words) = length_and_words(cycles, 3, CYCLE_WORDS, random);
    ((0..length).map(|_| random.number() as i64).collect(), words)
}

/// A length around that of so many things of so many numbers each, and in words what it is.
fn length_and_words(
    things: usize,
    each: usize,
    words: [&'static str; 5],
    random: &mut Random,
) -> (usize, &'static str) {
    let all = each * things;
    let length = match random.below(6) {
        0 => 0,
        1 | 2 => random.below(all),
        3 => all,
        4 => all + 1,
        _ => all + random.below(20),
    };
    let which = match length {
        0 if all > 0 => 0,
        _ if length == all => 3,
        _ if length > all => 4,
        _ if length % each == 0 => 1,
        _ => 2,
    };
    (length, words[which])
}

/// The room with the answers in it; what lies behind the last stays.
pub fn put(mut room: Vec<u16>, answers: &[Answer]) -> Vec<u16> {
    for (pair, answer) in room.chunks_exact_mut(2).zip(answers) {
        pair.copy_from_slice(&[answer.number.into(), answer.value.map_or(0, |Record(number)| number)]);
    }
    room
}

/// The room with the cycles in it.
pub fn put_cycles(mut room: Vec<i64>, cycles: &[Cycle]) -> Vec<i64> {
    for (three, cycle) in room.chunks_exact_mut(3).zip(cycles) {
        three.copy_from_slice(&[cycle.taken as i64, cycle.freed as i64, cycle.net]);
    }
    room
}

/// Where the slices differ first.
pub fn same<T: PartialEq + std::fmt::Display>(expected: &[T], found: &[T]) -> Result<(), String> {
    match (0..expected.len()).find(|at| expected[*at] != found[*at]) {
        Some(at) => Err(format!("the numbers at {at} are {} and should be {}", found[at], expected[at])),
        None => Ok(()),
    }
}
