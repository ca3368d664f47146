//! Marks in words: "64-bit words, lowest number in the lowest bit, unused top bits 0" (document 02,
//! request 9). The second program has one number for each mark; these are packed for the comparison, and
//! words from anywhere are taken apart, by sums and halves and no operation on bits.

/// How many marks a word has.
pub const WIDTH: usize = 64;

/// Marks, each 0 or 1, in as many words as they take.
pub fn packed(marks: &[u16]) -> Vec<u64> {
    let word = |marks: &[u16]| marks.iter().rev().fold(0, |word, mark| 2 * word + u64::from(*mark));
    marks.chunks(WIDTH).map(word).collect()
}

/// Each bit of the words as a number, the unused ones behind the marks.
pub fn unpacked(words: &[u64]) -> Vec<u16> {
    let bits = |word: &u64| {
        let mut rest = *word;
        std::array::from_fn::<u16, WIDTH, _>(|_| {
            let bit = rest % 2;
            rest /= 2;
            bit as u16
        })
    };
    words.iter().flat_map(bits).collect()
}

/// "A sound pool has the unused bits at 0": of so many marks in these words.
pub fn unused_are_0(words: &[u64], marks: usize) -> bool {
    unpacked(words).iter().skip(marks).all(|bit| *bit == 0)
}

/// How many marks lie in the last word.
pub fn in_the_last(marks: usize) -> usize {
    (marks - 1) % WIDTH + 1
}

#[cfg(test)]
mod tests {
    use super::*;

    #[test]
    fn the_lowest_number_has_the_lowest_bit() {
        assert_eq!(packed(&[1]), [1]);
        assert_eq!(packed(&[0, 1, 1]), [6]);
        let mut marks = [0; 129];
        [62, 63, 64, 128].into_iter().for_each(|place| marks[place] = 1);
        assert_eq!(packed(&marks), [0xC000_0000_0000_0000, 1, 1]);
        assert_eq!(packed(&[1; 64]), [u64::MAX]);
    }

    #[test]
    fn unpacking_undoes_packing() {
        for marks in [1, 63, 64, 65, 127, 128, 1024] {
            let some: Vec<u16> = (0..marks).map(|place| (place % 3 == 0 || place % 7 == 6) as u16).collect();
            let words = packed(&some);
            assert_eq!(words.len(), (marks + 63) / 64);
            assert_eq!(unpacked(&words)[..marks], some);
            assert!(unused_are_0(&words, marks));
            assert_eq!(in_the_last(marks), marks - 64 * (words.len() - 1));
        }
        assert!(!unused_are_0(&[4], 2) && unused_are_0(&[4], 3) && unused_are_0(&[u64::MAX], 64));
    }
}
