//! The table of the parts' lengths, and what is done to it.

use second::random::Random;

#[derive(Clone, Copy)]
pub enum Wrong {
    OneMore,
    OneLess,
    Moved,
    Wraps,
    WrapsIn32Bits,
    Huge,
    NoughtMore,
    Empty,
    Any,
}

impl Wrong {
    pub const ALL: [Wrong; 9] = [
        Wrong::OneMore,
        Wrong::OneLess,
        Wrong::Moved,
        Wrong::Wraps,
        Wrong::WrapsIn32Bits,
        Wrong::Huge,
        Wrong::NoughtMore,
        Wrong::Empty,
        Wrong::Any,
    ];

    pub fn words(self) -> &'static str {
        match self {
            Wrong::OneMore => "lengths of one byte more",
            Wrong::OneLess => "lengths of one byte less",
            Wrong::Moved => "lengths that end a part elsewhere",
            Wrong::Wraps => "lengths that add up only if they wrap",
            Wrong::WrapsIn32Bits => "lengths that add up only in 32 bits",
            Wrong::Huge => "a length of 18,446,744,073,709,551,615",
            Wrong::NoughtMore => "a length of 0 more",
            Wrong::Empty => "no length",
            Wrong::Any => "any lengths",
        }
    }

    /// Whether it was done: what needs two lengths is not done where there are fewer.
    pub fn done_to(self, lengths: &mut Vec<u64>, random: &mut Random) -> bool {
        let (one, other) = (random.below(lengths.len()), random.below(lengths.len()));
        match self {
            Wrong::OneMore if !lengths.is_empty() => lengths[one] += 1,
            Wrong::OneLess if !lengths.is_empty() && lengths[one] > 0 => lengths[one] -= 1,
            Wrong::Moved if one != other && lengths[one] > 0 => {
                let bytes = 1 + random.number() % lengths[one];
                lengths[one] -= bytes;
                lengths[other] += bytes;
            }
            // 2 to the 63rd more in two of them; or so much less in one that it falls below 0, and as
            // much more in the other.
            Wrong::Wraps if one != other && random.percent(50) => {
                lengths[one] += 1 << 63;
                lengths[other] += 1 << 63;
            }
            Wrong::Wraps if one != other => {
                let bytes = lengths[one] + 1 + random.number() % 1000;
                lengths[one] = lengths[one].wrapping_sub(bytes);
                lengths[other] += bytes;
            }
            Wrong::WrapsIn32Bits if !lengths.is_empty() => lengths[one] += (1 + random.below(3) as u64) << 32,
            Wrong::Huge if !lengths.is_empty() => lengths[one] = u64::MAX,
            Wrong::NoughtMore => lengths.insert(random.below(lengths.len() + 1), 0),
            Wrong::Empty => lengths.clear(),
            Wrong::Any => *lengths = (0..random.below(12)).map(|_| random.number() % 60).collect(),
            _ => return false,
        }
        true
    }
}
