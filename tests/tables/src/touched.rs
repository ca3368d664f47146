//! Sound pools in which one number, or two, are replaced by others, blindly: whether what is left
//! is sound the second program says, and the library has to say the same.

use second::random::Random;
use yuyarisun::{Lent, Refusal};

use crate::both::{hold, Both};
use crate::lie::{broken, nth, read, sizes_in, written, Table};
use crate::made::Draft;
use crate::reached::{Reached, KINDS};
use crate::runs::any_event;
use crate::ways::refused;

pub const STILL_SOUND: &str = "a touched pool that is sound still";
pub const NOT_SOUND: &str = "a touched pool that is not sound";

/// One of all the numbers of a pool, or of the words of its marks.
enum Place<'a> {
    Number(&'a mut u16),
    Word(&'a mut u64),
}

fn any_place<'a>(lent: &'a mut Lent, random: &mut Random) -> Place<'a> {
    match random.below(15) {
        12 => Place::Number(&mut lent.collector.phase),
        13 => Place::Number(&mut lent.collector.position),
        14 => Place::Number(&mut lent.collector.closed),
        which => {
            let table = nth(&mut lent.tables, which);
            // Most of the rooms of lists is empty; the front of them is not.
            let most = if random.percent(50) { table.len().min(8) } else { table.len() };
            let at = random.below(most);
            match table {
                Table::Marks(words) => Place::Word(&mut words[at]),
                Table::Numbers(numbers) => Place::Number(&mut numbers[at]),
            }
        }
    }
}

fn touch(lent: &mut Lent, random: &mut Random) {
    let (n, w, s) = (lent.sizes.n, lent.sizes.w, lent.sizes.links() as u16);
    let other = match any_place(lent, random) {
        Place::Number(number) => u64::from(*number),
        Place::Word(word) => *word,
    };
    match any_place(lent, random) {
        Place::Number(number) => touch_number(number, [n, w, s, other as u16], random),
        Place::Word(word) => touch_word(word, other, random),
    }
}

fn touch_word(word: &mut u64, other: u64, random: &mut Random) {
    *word = match random.below(8) {
        0 => 0,
        1 => u64::MAX,
        2 => !*word,
        3 => word.swap_bytes(),
        4 => random.number(),
        5 => other,
        _ => *word ^ (1 << random.below(64)),
    };
}

fn touch_number(number: &mut u16, [n, w, s, other]: [u16; 4], random: &mut Random) {
    let any = random.number() as u16;
    *number = match random.below(12) {
        0 => 0,
        1 => 1,
        2 => 2,
        3 => n,
        4 => n + 1,
        5 => s - 1,
        6 => s,
        7 => w,
        8 => number.wrapping_add(1),
        9 => number.wrapping_sub(1),
        10 => any,
        _ => other,
    };
}

pub fn run(seed: u64, reached: &mut Reached) -> Result<(), String> {
    let mut random = Random::new(seed);
    let mut lent = written(&Draft::thrown(&mut random).pool(&mut random));
    for _ in 0..1 + random.below(2) {
        touch(&mut lent, &mut random);
    }
    let clauses = broken(&lent);
    let sizes = sizes_in(&lent);
    let told = |told| format!("{sizes:?}, breaks {clauses:?}: {told}");
    reached.sizes(sizes);
    if !clauses.is_empty() {
        reached.situation(NOT_SOUND);
        return refused(&mut lent, Refusal::NotSound, &mut random, reached).map_err(told);
    }
    reached.situation(STILL_SOUND);
    let both = Both::of(read(&lent)).map_err(told)?;
    hold(written(&both.second) == lent, || told("reads back otherwise".into()))?;
    for kind in 0..KINDS.len() {
        both.clone().event(any_event(kind, sizes, &mut random), reached).map_err(told)?;
    }
    Ok(())
}
