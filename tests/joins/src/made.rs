//! Parts from a seed, whole and harmed, joined by both.

use second::pool::Sizes;
use second::random::Random;
use second::trace::{replay_takes, Refusal};

use crate::both::{compare, hold, sizes_of, Joined};
use crate::deal::{self, Dealt};
use crate::harm::Harm;
use crate::reached::Reached;
use crate::room;
use crate::table::Wrong;

const BACK: &str = "the dealt trace came back";
const TWO_DIGITS: &str = "9 joined before 10, from a later part";
const TWO_BYTES: &str = "255 joined before 256, from a later part";
const THREE_BYTES: &str = "65,535 joined before 65,536, from a later part";
const BOTH_LENGTHS: &str = "joined from parts with sizes of length 8 and of length 10";
const BOARDS_DIFFER: &str = "two parts that differ in B alone";
const LARGER: &str = "joined at sizes that `replay` does not take";
const BEHIND_WHOLE: &str = "a refused part behind one that is whole";
const TWO_HARMS: &str = "two things wrong at once";

/// What joining is answered: the number, and whether for a field.
const ANSWERS: [(u8, bool); 11] = [
    (0, false),
    (1, false),
    (7, true),
    (8, true),
    (9, true),
    (10, true),
    (10, false),
    (11, true),
    (12, true),
    (15, false),
    (16, false),
];

/// 1 at the sizes field of a part behind the first, where its place says so.
const LATER_SIZES: (u8, bool) = (1, true);

pub fn all_words() -> Vec<String> {
    let answers = ANSWERS.into_iter().chain([LATER_SIZES]).map(|(number, field)| answered(number, field));
    let joined = (1..=9).map(joined_from);
    let others = [
        BACK,
        TWO_DIGITS,
        TWO_BYTES,
        THREE_BYTES,
        BOTH_LENGTHS,
        BOARDS_DIFFER,
        LARGER,
        BEHIND_WHOLE,
        TWO_HARMS,
    ]
    .into_iter();
    let harms = Harm::ALL.map(Harm::words).into_iter().chain(Wrong::ALL.map(Wrong::words));
    let words = others.chain(harms).chain(room::WORDS).map(String::from);
    answers.chain(joined).chain(deal::all_words()).chain(words).collect()
}

fn answered(number: u8, field: bool) -> String {
    match (number, field) {
        (0, _) => "answered 0".into(),
        (_, true) => format!("answered {number} for a field"),
        (_, false) => format!("answered {number} for no field"),
    }
}

fn joined_from(parts: usize) -> String {
    format!("joined from {parts} parts")
}

pub fn run(seed: u64, reached: &mut Reached) -> Result<(), String> {
    let mut random = Random::new(seed);
    let most = random.pick(&[0, 3, 12, 12, 12, 40, 40, 300]);
    let dealt = deal::any(random.below(most + 1), &mut random);
    let mut parts = dealt.parts.clone();
    let mut done: Vec<&str> = Vec::new();
    for _ in 0..random.pick(&[0, 0, 1, 1, 1, 1, 2, 3]) {
        let harm = random.pick(&Harm::ALL);
        if harm.done_to(&mut parts, &mut random) {
            done.push(harm.words());
        }
    }
    let parts: Vec<Vec<u8>> = parts.iter().map(|part| part.concat()).collect();
    let mut lengths: Vec<u64> = parts.iter().map(|part| part.len() as u64).collect();
    if random.percent(15) {
        let wrong = random.pick(&Wrong::ALL);
        if wrong.done_to(&mut lengths, &mut random) {
            done.push(wrong.words());
        }
    }
    let slice = parts.concat();
    let (before, room_words) = room::any(dealt.trace.len(), slice.len(), &mut random);
    let told =
        |told: String| format!("{done:?}, lengths {lengths:?}, {room_words}, parts {parts:02X?}: {told}");

    let joined = compare(&slice, &lengths, &before).map_err(told)?;
    safe(&parts, &lengths, &joined).map_err(told)?;
    if done.is_empty() {
        given_back(&dealt, &joined, before.len(), reached).map_err(told)?;
    }
    done.iter().for_each(|words| reached.situation(words));
    if done.len() > 1 {
        reached.situation(TWO_HARMS);
    }
    reached.situation(room_words);
    reached.situation(dealt.words);
    if differ_in_b_alone(&parts) && matches!(joined, Err(Refusal { number: 15, .. })) {
        reached.situation(BOARDS_DIFFER);
    }
    count(&joined, &lengths, reached);
    Ok(())
}

/// Whether the parts have different sizes, which would be the same without B.
fn differ_in_b_alone(parts: &[Vec<u8>]) -> bool {
    let sizes: Vec<_> = parts.iter().map(|part| sizes_of(part)).collect();
    let without: Vec<_> = sizes.iter().map(|sizes| sizes.map(|sizes| Sizes { b: 0, ..sizes })).collect();
    let same = |list: &[Option<Sizes>]| list.iter().all(|sizes| *sizes == list[0]);
    !same(&sizes) && same(&without)
}

/// The call that lays the parts end to end itself, where the lengths are those of the parts.
fn safe(parts: &[Vec<u8>], lengths: &[u64], joined: &Joined) -> Result<(), String> {
    let own = parts.iter().map(|part| part.len() as u64);
    if !own.eq(lengths.iter().copied()) {
        return Ok(());
    }
    let slices: Vec<&[u8]> = parts.iter().map(Vec::as_slice).collect();
    let found = yuyarisun::join(&slices).map_err(|unjoined| (unjoined.refusal.number(), unjoined.place));
    let expected = match joined {
        // There is always room.
        Err(Refusal { number: 16, .. }) => return hold(found.is_ok(), || format!("join: {found:?}")),
        Err(Refusal { number, offset }) => Err((u16::from(*number), *offset)),
        Ok(joined) => Ok(joined.clone()),
    };
    hold(found == expected, || format!("join: answered {found:?}"))
}

/// "joining the parts of one trace .. gives that trace back": where there is room for it.
fn given_back(dealt: &Dealt, joined: &Joined, room: usize, reached: &mut Reached) -> Result<(), String> {
    if room < dealt.trace.len() {
        let short = Err(Refusal { number: 16, offset: 0 });
        return hold(*joined == short, || "no refusal, and no room".into());
    }
    hold(joined.as_ref() == Ok(&dealt.trace), || "the trace that was dealt out does not come back".into())?;
    reached.situation(BACK);
    for (first, words) in [(9, TWO_DIGITS), (255, TWO_BYTES), (65_535, THREE_BYTES)] {
        if let (Some(one), Some(next)) = (part_with(dealt, first), part_with(dealt, first + 1)) {
            if one > next {
                reached.situation(words);
            }
        }
    }
    let lengths = [8, 10].map(|length| dealt.parts.iter().any(|part| part[0][2] == length));
    if lengths == [true, true] {
        reached.situation(BOTH_LENGTHS);
    }
    if !replay_takes(dealt.sizes) {
        reached.situation(LARGER);
    }
    reached.situation(&joined_from(dealt.parts.len()));
    Ok(())
}

/// Which part has the event with this step number.
fn part_with(dealt: &Dealt, step: u32) -> Option<usize> {
    let has = |field: &Vec<u8>| field[0] != 0x7F && field[3..7] == step.to_be_bytes();
    dealt.parts.iter().position(|part| part[1..].iter().any(has))
}

fn count(joined: &Joined, lengths: &[u64], reached: &mut Reached) {
    match joined {
        Ok(_) => reached.situation(&answered(0, false)),
        Err(Refusal { number, offset }) => {
            // At place 0 these are a field's: the first part's.
            let field = *offset > 0 || [7, 8, 9].contains(number);
            reached.situation(&answered(*number, field));
            if field && lengths.first().is_some_and(|first| *first < *offset as u64) {
                reached.situation(BEHIND_WHOLE);
            }
        }
    }
}

/// A long trace, whose step numbers need three bytes.
pub fn long(seed: u64, reached: &mut Reached) -> Result<(), String> {
    let mut random = Random::new(seed);
    loop {
        let dealt = deal::any(66_000, &mut random);
        let parts: Vec<Vec<u8>> = dealt.parts.iter().map(|part| part.concat()).collect();
        let lengths: Vec<u64> = parts.iter().map(|part| part.len() as u64).collect();
        let before = vec![0; dealt.trace.len()];
        let joined = compare(&parts.concat(), &lengths, &before)?;
        given_back(&dealt, &joined, before.len(), reached)?;
        if part_with(&dealt, 65_535) > part_with(&dealt, 65_536) {
            return Ok(());
        }
    }
}
