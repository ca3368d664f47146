//! Sizes at the ends of words. "Used, held, candidate and changed marks go, each kind apart, into 64-bit
//! words" (document 02, request 9). Here a mark is a member of its set and lies in no word; but traces
//! and tables should have last words with one mark, with all but one, and with all of them.

use crate::pool::Sizes;
use crate::random::Random;

/// What N and S should come to: one mark, the 63rd, 64th and 65th, the 127th and 128th, and the most
/// records.
const ENDS: [u16; 7] = [1, 63, 64, 65, 127, 128, 1024];

/// The same in words. Those that `replay` takes come first.
pub const AT_ENDS: [&str; 14] = [
    "N is 1",
    "N is 63",
    "N is 64",
    "S is 1",
    "S is 63",
    "S is 64",
    "S is 65",
    "S is 127",
    "S is 128",
    "N is 65",
    "N is 127",
    "N is 128",
    "N is 1,024",
    "S is 1,024",
];

/// How many of them `replay` takes: its N goes up to 64, its S up to 264.
pub const OF_REPLAY: usize = 9;

/// Which of these hold of sizes.
pub fn at_ends(sizes: Sizes) -> [bool; AT_ENDS.len()] {
    let n = |number| usize::from(sizes.n) == number;
    let s = |number| sizes.s() == number;
    let [n_1, n_63, n_64, n_65, n_127, n_128, n_1024] = ENDS.map(usize::from).map(n);
    let [s_1, s_63, s_64, s_65, s_127, s_128, s_1024] = ENDS.map(usize::from).map(s);
    [n_1, n_63, n_64, s_1, s_63, s_64, s_65, s_127, s_128, n_65, n_127, n_128, n_1024, s_1024]
}

/// N or S at the end of a word, and no size above these. The longest tables come seldom, for each takes as
/// long as many others.
pub fn at_the_end_of_a_word(most: Sizes, random: &mut Random) -> Sizes {
    let [ends @ .., most_records] = ENDS;
    let end = if random.percent(10) { most_records } else { random.pick(&ends) };
    let mut size = |least, largest: u16| random.between(least, largest);
    let sizes = Sizes {
        n: size(1, 4),
        k: size(1, most.k.min(3)),
        w: size(1, most.w.min(3)),
        r: size(1, most.r),
        b: size(0, most.b),
    };
    if end <= most.n && random.percent(50) {
        return Sizes { n: end, ..sizes };
    }
    let splits: Vec<Sizes> = splits(end, most).map(|(n, k, b)| Sizes { n, k, b, ..sizes }).collect();
    match splits.is_empty() {
        true => sizes,
        false => random.pick(&splits),
    }
}

/// N, K and B, of which none is above these, with so many links.
fn splits(links: u16, most: Sizes) -> impl Iterator<Item = (u16, u16, u16)> {
    (1..=most.k).flat_map(move |k| (0..=most.b).map(move |b| (k, b))).filter_map(move |(k, b)| {
        let of_records = links.checked_sub(b)?;
        let n = of_records / k;
        (n >= 1 && n <= most.n && of_records % k == 0).then_some((n, k, b))
    })
}

#[cfg(test)]
mod tests {
    use super::*;
    use crate::trace::{in_range, replay_takes, LARGEST, LARGEST_OF_ALL};

    #[test]
    fn every_end_is_reached() {
        for (most, ends) in [(LARGEST, OF_REPLAY), (LARGEST_OF_ALL, AT_ENDS.len())] {
            let mut random = Random::new(9);
            let mut came = [false; AT_ENDS.len()];
            for _ in 0..5000 {
                let sizes = at_the_end_of_a_word(most, &mut random);
                assert!(in_range(sizes) && (most == LARGEST_OF_ALL || replay_takes(sizes)), "{sizes:?}");
                for (came, now) in came.iter_mut().zip(at_ends(sizes)) {
                    *came |= now;
                }
            }
            let missing: Vec<&str> = AT_ENDS
                .into_iter()
                .zip(came)
                .take(ends)
                .filter(|(_, came)| !came)
                .map(|(words, _)| words)
                .collect();
            assert!(missing.is_empty(), "{missing:?}");
        }
    }
}
