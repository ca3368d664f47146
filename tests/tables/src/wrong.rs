//! Sizes out of their range and tables of other lengths: answered 1, and left as they were.

use second::pool::Sizes;
use second::random::Random;
use yuyarisun::{Lent, Refusal, Tables};

use crate::both::{hold, same};
use crate::lie::{nth, written, TABLES};
use crate::made::Draft;
use crate::reached::Reached;
use crate::runs::{choose_sizes, LARGEST};
use crate::traces;
use crate::ways::refused;
use crate::words::{unpacked, unused_are_0, WIDTH};

const SIZES: [&str; 5] = ["N", "K", "W", "R", "B"];

/// What the free records are counted from.
const FREE: [&str; 4] = [
    "free records: more ones than N",
    "free records: too few words",
    "free records: too many words",
    "free records: an unused bit on",
];

pub fn all_words() -> Vec<String> {
    let lengths =
        TABLES.iter().flat_map(|table| ["too short", "too long"].map(|how| format!("{table} {how}")));
    let sizes = SIZES
        .iter()
        .flat_map(|size| ["0", "one too large", "far too large"].map(|how| format!("{size} is {how}")))
        .filter(|words| words != "B is 0");
    lengths.chain(sizes).chain(FREE.map(String::from)).collect()
}

/// A sound pool, at times with a number spoilt: 1 is answered before 2.
fn some_pool(random: &mut Random) -> Lent {
    let sizes = choose_sizes(random);
    let mut lent = written(&Draft::any(sizes, random.below(7) as u8, 30, random).pool(random));
    if random.percent(30) {
        lent.tables.registers[0] = u16::MAX;
    }
    lent
}

fn wrong_length(random: &mut Random) -> (Lent, String) {
    let mut lent = some_pool(random);
    let which = random.below(TABLES.len());
    let mut table = nth(&mut lent.tables, which);
    let length = table.len();
    let short = random.percent(50);
    let wrong = match (short, random.below(4)) {
        (true, 0) => 0,
        (true, 1) => random.below(length),
        (true, _) => length - 1,
        (false, 0) => 2 * length,
        (false, 1) => length + 65_536,
        (false, _) => length + 1,
    };
    table.resize(wrong);
    (lent, format!("{} {}", TABLES[which], if short { "too short" } else { "too long" }))
}

/// The tables stay as they were, or have the lengths that the wrong sizes ask for, or those that
/// they would ask for if 16 bits were all there is.
fn wrong_size(random: &mut Random) -> (Lent, String) {
    let mut lent = some_pool(random);
    let which = random.below(SIZES.len());
    let most = [LARGEST.n, LARGEST.k, LARGEST.w, LARGEST.r, LARGEST.b][which];
    let (size, how) = match random.below(3) {
        // There may be no board.
        0 if SIZES[which] != "B" => (0, "0"),
        1 => (most + 1, "one too large"),
        _ => (far_above(most, random), "far too large"),
    };
    let s = &mut lent.sizes;
    *[&mut s.n, &mut s.k, &mut s.w, &mut s.r, &mut s.b][which] = size;
    let sizes = lent.sizes;
    match random.below(3) {
        0 => {}
        1 if usize::from(sizes.w) * sizes.links() < 1 << 18 => lent.tables = Tables::zeros(sizes),
        _ => {
            let wrapped = |a: u16, b: u16| usize::from(a.wrapping_mul(b));
            let mut tables = Tables::zeros(yuyarisun::Sizes { n: sizes.n, k: 0, w: sizes.w, r: 0, b: 0 });
            let s = (wrapped(sizes.n, sizes.k) + usize::from(sizes.b)) % 65_536;
            tables.values.resize(s, 0);
            tables.changed.resize(s.div_ceil(WIDTH), 0);
            tables.history.resize(2 * s % 65_536, 0);
            tables.logs.resize(wrapped(sizes.w, (2 * s) as u16), 0);
            tables.registers.resize((wrapped(sizes.w, sizes.r) + 1) % 65_536, 0);
            lent.tables = tables;
        }
    }
    (lent, format!("{} is {how}", SIZES[which]))
}

/// A size with which a product of 16 bits may come out small.
fn far_above(most: u16, random: &mut Random) -> u16 {
    let any = random.between(most + 2, u16::MAX);
    random.pick(&[2048, 4096, 8192, 16_384, 32_768, u16::MAX, any, any])
}

pub fn run(seed: u64, reached: &mut Reached) -> Result<(), String> {
    let mut random = Random::new(seed);
    let (mut lent, words) =
        if random.percent(50) { wrong_length(&mut random) } else { wrong_size(&mut random) };
    let told = |told| format!("{words}: {told}");
    let before = lent.clone();
    refused(&mut lent, Refusal::WrongSize, &mut random, reached).map_err(told)?;
    let answer = lent.fresh();
    hold(answer == Err(Refusal::WrongSize), || told(format!("fresh: answered {answer:?}")))?;
    same("fresh", &before, (&lent.tables, lent.collector)).map_err(told)?;
    traces::refused(&mut lent).map_err(told)?;
    free_records(&lent, reached).map_err(told)?;
    lent.sizes.n = random.pick(&[0, 1, 63, 64, 65, 1024, u16::MAX]);
    lent.tables.used = (0..random.below(5)).map(|_| random.pick(&[0, 1, 1 << 63, u64::MAX, 4711])).collect();
    free_records(&lent, reached)?;
    reached.situation(&words);
    Ok(())
}

/// N less the ones, whatever words these are, and 0 where there are more of them.
fn free_records(lent: &Lent, reached: &mut Reached) -> Result<(), String> {
    let (words, n) = (&lent.tables.used, usize::from(lent.sizes.n));
    let on: usize = unpacked(words).into_iter().map(usize::from).sum();
    let (free, found) = (n.saturating_sub(on), lent.free_records());
    hold(found == free, || format!("free records: {found} and not {free}, of {n} in {words:x?}"))?;
    let situations = [
        (on > n, FREE[0]),
        (words.len() < n.div_ceil(WIDTH), FREE[1]),
        (words.len() > n.div_ceil(WIDTH), FREE[2]),
        (words.len() == n.div_ceil(WIDTH) && !unused_are_0(words, n), FREE[3]),
    ];
    situations.into_iter().filter(|(came, _)| *came).for_each(|(_, words)| reached.situation(words));
    Ok(())
}

/// Sizes at the ends of their ranges are taken.
pub fn limits() -> Result<(), String> {
    let all = |limit: [u16; 2]| limit.into_iter();
    for n in all([1, LARGEST.n]) {
        for k in all([1, LARGEST.k]) {
            for w in all([1, LARGEST.w]) {
                for r in all([1, LARGEST.r]) {
                    for b in all([0, LARGEST.b]) {
                        let sizes = Sizes { n, k, w, r, b };
                        crate::both::Both::fresh(sizes).map_err(|told| format!("{sizes:?}: {told}"))?;
                    }
                }
            }
        }
    }
    Ok(())
}
