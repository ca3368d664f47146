//! The slice that is written: of any length, with anything in it.

use second::random::Random;

pub const WORDS: [&str; 6] = [
    "no room at all",
    "the output much too short",
    "the output one byte too short",
    "the output exactly long enough",
    "the output longer than the joined trace",
    "the output as long as all parts",
];

/// A slice for a joined trace of so many bytes, from parts of so many.
pub fn any(joined: usize, parts: usize, random: &mut Random) -> (Vec<u8>, &'static str) {
    let which = random.below(WORDS.len());
    let length = match which {
        0 => 0,
        1 => random.below(joined),
        2 => joined.saturating_sub(1),
        3 => joined,
        4 => joined + 1 + random.below(40),
        _ => parts,
    };
    ((0..length).map(|_| random.byte()).collect(), WORDS[which])
}
