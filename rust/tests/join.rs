//! Parts of a trace, joined, as the crate's users see it.

use std::error::Error;

use yuyarisun::{join, join_into, replay, Event, Field, Refusal, Sizes, Unjoined, Within};

const SIZES: Sizes = Sizes { n: 2, k: 1, w: 2, r: 1, b: 0 };

fn part(sizes: Sizes, events: &[(u32, Event)]) -> Vec<u8> {
    let mut bytes = Vec::new();
    Field::Sizes(sizes).put(&mut bytes);
    events.iter().for_each(|(step, event)| Field::Event { step: *step, event: *event }.put(&mut bytes));
    Field::End { count: events.len() as u32 }.put(&mut bytes);
    bytes
}

/// Collector steps with these numbers.
fn steps(steps: &[u32]) -> Vec<u8> {
    let events: Vec<(u32, Event)> = steps.iter().map(|step| (*step, Event::Collect)).collect();
    part(SIZES, &events)
}

fn unjoined(parts: &[&[u8]]) -> (Refusal, usize, Option<(usize, usize)>) {
    let Unjoined { refusal, place, within } = join(parts).unwrap_err();
    (refusal, place, within.map(|Within { part, place }| (part, place)))
}

/// "One file for each worker": nine parts at most, as there are eight workers at most.
#[test]
fn the_parts_of_every_worker_and_the_collector() -> Result<(), Box<dyn Error>> {
    let sizes = Sizes { n: 16, k: 1, w: 8, r: 1, b: 0 };
    let make = |w: u8| (u32::from(w) + 1, Event::Make { w, r: 0 });
    let drop = |w: u8| (u32::from(w) + 9, Event::Drop { w, r: 0 });
    let mut parts: Vec<Vec<u8>> = (0..8).map(|w| part(sizes, &[make(w), drop(w)])).collect();
    parts.push(part(sizes, &[(17, Event::Collect), (18, Event::Collect)]));
    let events: Vec<(u32, Event)> = (0..8).map(make).chain((0..8).map(drop)).collect();
    let collects = [(17, Event::Collect), (18, Event::Collect)];
    let whole = part(sizes, &[&events[..], &collects].concat());

    let slices: Vec<&[u8]> = parts.iter().map(Vec::as_slice).collect();
    assert_eq!(join(&slices)?, whole);
    let backwards: Vec<&[u8]> = slices.iter().rev().copied().collect();
    assert_eq!(join(&backwards)?, whole);
    let lines = replay(&whole).to_string();
    assert!(lines.starts_with("1 0 1\n2 0 2\n") && lines.ends_with("18 0 0\nend 8 0\n"), "{lines}");
    Ok(())
}

/// By their digits as text 10 would come before 9.
#[test]
fn step_numbers_are_numbers() -> Result<(), Unjoined> {
    let (make, drop) = (Event::Make { w: 0, r: 0 }, Event::Drop { w: 0, r: 0 });
    let first: Vec<(u32, Event)> = (1..=9).map(|step| (step, make)).collect();
    let whole: Vec<(u32, Event)> = first.iter().copied().chain([(10, drop)]).collect();
    assert_eq!(join(&[&part(SIZES, &[(10, drop)]), &part(SIZES, &first)])?, part(SIZES, &whole));
    Ok(())
}

#[test]
fn a_part_that_holds_all_is_the_trace_itself() -> Result<(), Unjoined> {
    for all in [steps(&[]), steps(&[1, 2, 3])] {
        assert_eq!(join(&[&all])?, all);
        assert_eq!(join(&[&steps(&[]), &all, &steps(&[])])?, all);
    }
    Ok(())
}

#[test]
fn the_parts_are_one_to_nine() {
    assert_eq!(unjoined(&[]), (Refusal::WrongSize, 0, None));
    let empty = steps(&[]);
    assert!(join(&[empty.as_slice(); 9]).is_ok());
    assert_eq!(unjoined(&[empty.as_slice(); 10]), (Refusal::WrongSize, 0, None));
}

#[test]
fn the_lengths_add_up_to_the_slice() {
    let both = [steps(&[1]), steps(&[2])].concat();
    let mut out = vec![9; 60];
    assert_eq!(join_into(&both, &[25, 25], &mut out), Ok(32));
    let wrong = Unjoined { refusal: Refusal::WrongSize, place: 0, within: None };
    let tables: [&[u64]; 6] =
        [&[], &[25], &[25, 24], &[25, 26], &[u64::MAX, 51], &[25, 25, 1 << 63, 1 << 63]];
    for lengths in tables {
        let mut out = vec![9; 60];
        assert_eq!(join_into(&both, lengths, &mut out), Err(wrong), "{lengths:?}");
        assert_eq!(out, vec![9; 60]);
    }
    assert_eq!(wrong.to_string(), "the parts aren't one to nine, or their lengths don't add up to the slice");
}

/// The first part that is refused tells, whatever the parts behind it are like.
#[test]
fn a_refused_field_has_its_part_and_its_place() {
    let whole = steps(&[1, 3]);
    let (cut, empty): (&[u8], &[u8]) = (&whole[..25], &[]);
    assert_eq!(unjoined(&[cut, &whole]), (Refusal::StopsShort, 25, Some((0, 25))));
    assert_eq!(unjoined(&[&whole, empty]), (Refusal::StopsShort, 32, Some((1, 0))));
    assert_eq!(unjoined(&[empty, &whole]), (Refusal::StopsShort, 0, Some((0, 0))));
    assert_eq!(unjoined(&[&whole[11..], cut]), (Refusal::WrongTag, 0, Some((0, 0))));
    assert_eq!(unjoined(&[&whole, &steps(&[2, 2])]), (Refusal::WrongStep, 50, Some((1, 18))));
    assert_eq!(unjoined(&[&whole, &steps(&[0])]), (Refusal::WrongStep, 43, Some((1, 11))));
    assert_eq!(unjoined(&[&steps(&[10, 9]), &whole]), (Refusal::WrongStep, 18, Some((0, 18))));
    let with_a_byte = [&whole[..], &[0]].concat();
    assert_eq!(unjoined(&[&with_a_byte, cut]), (Refusal::ExtraByte, 32, Some((0, 32))));
    let out_of_range = part(Sizes { n: 1025, ..SIZES }, &[]);
    assert_eq!(unjoined(&[&out_of_range]), (Refusal::WrongSize, 0, Some((0, 0))));
    assert_eq!(unjoined(&[&whole, &out_of_range]), (Refusal::WrongSize, 32, Some((1, 0))));
    let mut last_step_for_a_count = whole.clone();
    last_step_for_a_count[31] = 3;
    assert_eq!(unjoined(&[&last_step_for_a_count]), (Refusal::WrongCount, 25, Some((0, 25))));
    let mut other_length = whole.clone();
    other_length[13] = 6;
    assert_eq!(unjoined(&[&whole, &other_length]), (Refusal::WrongLength, 43, Some((1, 11))));
}

/// The sizes field of a part with length 10 and B = 0 in place of length 8.
fn with_b(part: &[u8]) -> Vec<u8> {
    [&[0x01, 0, 10], &part[3..11], &[0, 0], &part[11..]].concat()
}

/// "Length 8 means B = 0": the same sizes. The joined trace has the first part's field.
#[test]
fn sizes_of_both_lengths_are_equal() -> Result<(), Unjoined> {
    let (first, second, whole) = (steps(&[1, 3]), steps(&[2]), steps(&[1, 2, 3]));
    assert_eq!(join(&[&first, &with_b(&second)])?, whole);
    assert_eq!(join(&[&with_b(&first), &second])?, with_b(&whole));
    let board = part(Sizes { b: 1, ..SIZES }, &[(2, Event::Collect)]);
    assert_eq!(unjoined(&[&first, &board]), (Refusal::SizesDiffer, 0, None));
    assert_eq!(unjoined(&[&board, &with_b(&first)]), (Refusal::SizesDiffer, 0, None));
    Ok(())
}

#[test]
fn what_is_asked_of_all_parts_together() {
    let others = part(Sizes { r: 2, ..SIZES }, &[]);
    assert_eq!(unjoined(&[&steps(&[2]), &others]), (Refusal::SizesDiffer, 0, None));
    assert_eq!(unjoined(&[&steps(&[1, 3])]), (Refusal::WrongStep, 0, None));
    assert_eq!(unjoined(&[&steps(&[2])]), (Refusal::WrongStep, 0, None));
    assert_eq!(unjoined(&[&steps(&[1, 2]), &steps(&[2])]), (Refusal::WrongStep, 0, None));
    assert_eq!(unjoined(&[&steps(&[1, u32::MAX])]), (Refusal::WrongStep, 0, None));
}

#[test]
fn the_output_is_long_enough_or_stays() {
    let both = [steps(&[2]), steps(&[1, 3])].concat();
    let joined = steps(&[1, 2, 3]);
    for room in 0..=both.len() {
        let mut out = vec![9; room];
        let answer = join_into(&both, &[25, 32], &mut out);
        if room < joined.len() {
            let short = Unjoined { refusal: Refusal::OutputShort, place: 0, within: None };
            assert_eq!(answer, Err(short), "{room}");
            assert_eq!(out, vec![9; room]);
        } else {
            assert_eq!(answer, Ok(joined.len()));
            assert_eq!(out[..joined.len()], joined);
            assert!(out[joined.len()..].iter().all(|byte| *byte == 9));
        }
    }
}

#[test]
fn an_error_says_which_part_and_why() {
    let error: Box<dyn Error> = join(&[&steps(&[1]), &steps(&[3, 3])]).unwrap_err().into();
    assert_eq!(error.to_string(), "part 1, byte 18: step number not above the part's previous number");
    assert_eq!(error.source().map(|source| source.to_string()), Some(Refusal::WrongStep.to_string()));
    let words = |parts: &[&[u8]]| join(parts).unwrap_err().words();
    assert_eq!(words(&[&steps(&[1, 3])]), "the joined step numbers aren't 1 to n");
    assert_eq!(words(&[&steps(&[]), &part(Sizes { n: 1, ..SIZES }, &[])]), "two parts differ in sizes");
    assert_eq!(words(&[&part(Sizes { n: 0, ..SIZES }, &[])]), "a size is out of its range");
}
