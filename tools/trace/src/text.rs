//! The text form of a trace: one field on a line, `#` begins a comment.
//!
//! ```text
//! sizes N K W R [B]
//! [STEP] make w r
//! [STEP] move w r q
//! [STEP] drop w r
//! [STEP] load w r q f
//! [STEP] store w q f r
//! [STEP] look w r e
//! [STEP] post w e r
//! [STEP] collect
//! times COUNT EVENT        the event without a step number, COUNT times
//! end [COUNT]
//! raw DIGITS DIGITS ..     bytes in hexadecimal, two digits each, as they are
//! ```
//!
//! A step number left out is the previous one plus one (the first is 1), a count left out is the
//! last step number. With B left out the sizes field has length 8, which says B = 0, else length 10.
//! `show` leaves nothing out but a B that the field does not carry; it writes as `raw` what begins no
//! field of a known tag, a length of that tag's and a whole payload, and all that follows such a place.

use std::fmt::Write;
use std::path::Path;
use std::str::{from_utf8, FromStr};

use second::pool::Sizes;
use second::trace::{well_formed, Field, Kind};

/// The word for a kind of field, and the numbers that it takes.
fn words(kind: Kind) -> (&'static str, &'static str) {
    let numbers = match kind {
        Kind::Sizes => "N K W R [B]",
        Kind::Make | Kind::Drop => "w r",
        Kind::Move => "w r q",
        Kind::Load => "w r q f",
        Kind::Store => "w q f r",
        Kind::Look => "w r e",
        Kind::Post => "w e r",
        Kind::Collect => "",
        Kind::End => "[COUNT]",
    };
    (kind.name(), numbers)
}

/// The text of any bytes, such that `write` gives the same bytes again. Each line says at which
/// offset it begins.
pub fn show(trace: &[u8]) -> String {
    let mut text = String::new();
    let mut offset = 0;
    while let Some(field) = well_formed(&trace[offset..]) {
        add_line(&mut text, &line(&field), offset);
        offset += field.bytes().len();
    }
    for (row, bytes) in trace[offset..].chunks(16).enumerate() {
        let raw: String = bytes.iter().map(|byte| format!(" {byte:02x}")).collect();
        add_line(&mut text, &format!("raw{raw}"), offset + 16 * row);
    }
    text
}

fn add_line(text: &mut String, line: &str, offset: usize) {
    // Writing to a string cannot fail.
    let _ = writeln!(text, "{line:<28} # at {offset}");
}

fn line(field: &Field) -> String {
    match field {
        Field::Sizes { sizes: Sizes { n, k, w, r, .. }, carries_b: false } => {
            format!("sizes {n} {k} {w} {r}")
        }
        Field::Sizes { sizes: Sizes { n, k, w, r, b }, carries_b: true } => {
            format!("sizes {n} {k} {w} {r} {b}")
        }
        Field::End { count } => format!("end {count}"),
        Field::Event { step, event } => {
            let numbers: String = event.numbers().iter().map(|number| format!(" {number}")).collect();
            format!("{step} {}{numbers}", words(event.kind()).0)
        }
    }
}

/// What is wrong with a text, and in which line, the first being 1.
#[derive(Clone, Debug, PartialEq, Eq)]
pub struct Wrong {
    pub line: usize,
    pub what: String,
}

/// Whether a file's name says that it is in the text form.
pub fn is_named(path: &Path) -> bool {
    path.extension().is_some_and(|extension| extension == "trace")
}

/// The bytes of a text as it comes from a file, or what is wrong with it.
pub fn write_bytes(text: &[u8]) -> Result<Vec<u8>, Wrong> {
    match from_utf8(text) {
        Ok(text) => write(text),
        Err(error) => {
            let line = 1 + text[..error.valid_up_to()].iter().filter(|byte| **byte == b'\n').count();
            let what = "not UTF-8, so no text; the bytes of a trace are shown by `trace show`".into();
            Err(Wrong { line, what })
        }
    }
}

/// The bytes of a text, or what is wrong with it.
pub fn write(text: &str) -> Result<Vec<u8>, Wrong> {
    let mut writer = Writer { bytes: Vec::new(), last_step: 0 };
    for (line, said) in (1..).zip(text.lines()) {
        let said = said.split('#').next().unwrap_or("");
        let words: Vec<&str> = said.split_whitespace().collect();
        writer.line(&words).map_err(|what| Wrong { line, what })?;
    }
    Ok(writer.bytes)
}

struct Writer {
    bytes: Vec<u8>,
    last_step: u32,
}

impl Writer {
    fn line(&mut self, words: &[&str]) -> Result<(), String> {
        match words {
            [] => Ok(()),
            ["raw", bytes @ ..] => self.raw(bytes),
            ["sizes", sizes @ ..] => self.sizes(sizes),
            ["end"] => self.end(self.last_step),
            ["end", count] => self.end(number(count)?),
            ["end", ..] => Err("end takes one count at most".into()),
            ["times", count, event @ ..] => {
                let count: u32 = number(count)?;
                let kind = event_kind(event)?;
                (0..count).try_for_each(|_| self.next_event(kind, event))
            }
            ["times"] => Err("times takes a count and an event".into()),
            [step, event @ ..] if step.starts_with(|c: char| c.is_ascii_digit()) => {
                self.event(number(step)?, event_kind(event)?, event)
            }
            event => self.next_event(event_kind(event)?, event),
        }
    }

    fn raw(&mut self, words: &[&str]) -> Result<(), String> {
        for word in words {
            let bytes = hexadecimal(word);
            self.bytes.extend(
                bytes.ok_or_else(|| format!("`{word}` is no bytes in hexadecimal, two digits for each"))?,
            );
        }
        Ok(())
    }

    fn sizes(&mut self, sizes: &[&str]) -> Result<(), String> {
        let numbers: Vec<u16> = sizes.iter().map(|word| number(word)).collect::<Result<_, _>>()?;
        let (sizes, carries_b) = match numbers[..] {
            [n, k, w, r] => (Sizes { n, k, w, r, b: 0 }, false),
            [n, k, w, r, b] => (Sizes { n, k, w, r, b }, true),
            _ => return Err(other_numbers(Kind::Sizes, numbers.len())),
        };
        self.bytes.extend(Field::Sizes { sizes, carries_b }.bytes());
        Ok(())
    }

    fn end(&mut self, count: u32) -> Result<(), String> {
        self.bytes.extend(Field::End { count }.bytes());
        Ok(())
    }

    fn next_event(&mut self, kind: Kind, event: &[&str]) -> Result<(), String> {
        match self.last_step.checked_add(1) {
            Some(step) => self.event(step, kind, event),
            None => Err("no step number follows 4294967295".into()),
        }
    }

    /// The event's first word is that of its kind.
    fn event(&mut self, step: u32, kind: Kind, event: &[&str]) -> Result<(), String> {
        let numbers: Vec<u8> = event[1..].iter().map(|word| number(word)).collect::<Result<_, _>>()?;
        let event = kind.event(&numbers).ok_or_else(|| other_numbers(kind, numbers.len()))?;
        self.bytes.extend(Field::Event { step, event }.bytes());
        self.last_step = step;
        Ok(())
    }
}

/// The words for the events.
const EVENTS: &str = "make, move, drop, load, store, look, post or collect";

/// The kind of the event that these words begin.
fn event_kind(event: &[&str]) -> Result<Kind, String> {
    let Some(word) = event.first() else {
        return Err("here an event is missing".into());
    };
    let is_event = |kind: &Kind| ![Kind::Sizes, Kind::End].contains(kind);
    let mut kinds = Kind::ALL.into_iter().filter(is_event);
    let found = kinds.find(|kind| words(*kind).0 == *word);
    found.ok_or_else(|| format!("`{word}` is no event: {EVENTS}"))
}

fn other_numbers(kind: Kind, given: usize) -> String {
    match words(kind) {
        (word, "") => format!("{word} takes no numbers, and here are {given}"),
        (word, takes) => format!("{word} takes the numbers {takes}, and here are {given}"),
    }
}

/// Two digits for each byte.
fn hexadecimal(word: &str) -> Option<Vec<u8>> {
    let digits: Vec<u8> = word.chars().map(|digit| Some(digit.to_digit(16)? as u8)).collect::<Option<_>>()?;
    let pairs = digits.chunks_exact(2);
    pairs.remainder().is_empty().then(|| pairs.map(|pair| 16 * pair[0] + pair[1]).collect())
}

/// A number in decimal, from 0 to the largest that its place in the trace has room for.
trait Decimal: FromStr {
    const LARGEST: u32;
}

impl Decimal for u8 {
    const LARGEST: u32 = u8::MAX as u32;
}

impl Decimal for u16 {
    const LARGEST: u32 = u16::MAX as u32;
}

impl Decimal for u32 {
    const LARGEST: u32 = u32::MAX;
}

fn number<T: Decimal>(word: &str) -> Result<T, String> {
    word.parse().map_err(|_| format!("`{word}` is no number from 0 to {}", T::LARGEST))
}

#[cfg(test)]
mod tests {
    use second::maker::make;
    use second::random::Random;

    use super::*;

    #[test]
    fn any_bytes_come_back_from_their_text() {
        let mut random = Random::new(1);
        let whole = write("sizes 2 1 1 1\nmake 0 0\ncollect\nend").unwrap();
        for length in 0..=whole.len() {
            let mut bytes = whole[..length].to_vec();
            bytes.extend((0..random.below(40)).map(|_| random.byte()));
            assert_eq!(write(&show(&bytes)), Ok(bytes));
        }
    }

    #[test]
    fn made_traces_come_back_from_their_text() {
        for seed in 0..100 {
            let bytes = make(seed).trace;
            assert_eq!(write(&show(&bytes)), Ok(bytes), "seed {seed}");
        }
    }

    #[test]
    fn what_may_be_left_out_is_what_it_should_be() {
        let said = "sizes 2 1 1 1\n1 make 0 0\n2 collect\n3 collect\nend 3";
        let left_out = "sizes 2 1 1 1 # two records\n\nmake 0 0\ntimes 2 collect\nend";
        assert_eq!(write(said), write(left_out));
    }

    #[test]
    fn the_sizes_come_back_in_either_length() {
        for (said, bytes) in [
            ("sizes 1 2 3 4", &[1, 0, 8, 0, 1, 0, 2, 0, 3, 0, 4][..]),
            ("sizes 1 2 3 4 0", &[1, 0, 10, 0, 1, 0, 2, 0, 3, 0, 4, 0, 0]),
            ("sizes 1 2 3 4 258", &[1, 0, 10, 0, 1, 0, 2, 0, 3, 0, 4, 1, 2]),
        ] {
            assert_eq!(write(said).as_deref(), Ok(bytes));
            assert_eq!(show(bytes), format!("{said:<28} # at 0\n"));
        }
        assert!(show(&[1, 0, 9, 0, 1, 0, 2, 0, 3, 0, 4, 0]).starts_with("raw "));
    }

    #[test]
    fn a_line_that_means_nothing_is_named() {
        for (line, wrong) in [
            ("mak 0 0", "`mak` is no event: make, move, drop, load, store, look, post or collect"),
            ("make 0", "make takes the numbers w r, and here are 1"),
            ("make 0 256", "`256` is no number from 0 to 255"),
            ("make 0 x", "`x` is no number from 0 to 255"),
            ("collect 1", "collect takes no numbers, and here are 1"),
            ("post 0 0", "post takes the numbers w e r, and here are 2"),
            ("sizes 1 1 1", "sizes takes the numbers N K W R [B], and here are 3"),
            ("sizes 1 1 1 1 1 1", "sizes takes the numbers N K W R [B], and here are 6"),
            ("sizes 65536 1 1 1", "`65536` is no number from 0 to 65535"),
            ("end 1 2", "end takes one count at most"),
            ("times", "times takes a count and an event"),
            ("times 3", "here an event is missing"),
            ("times 3 end", "`end` is no event: make, move, drop, load, store, look, post or collect"),
            ("raw 123", "`123` is no bytes in hexadecimal, two digits for each"),
            ("7", "here an event is missing"),
            ("4294967296 collect", "`4294967296` is no number from 0 to 4294967295"),
        ] {
            let wrong = Wrong { line: 2, what: wrong.into() };
            assert_eq!(write(&format!("# first\n{line}\n")), Err(wrong));
        }
    }

    #[test]
    fn what_is_no_text_is_named() {
        assert_eq!(write_bytes(b"# first\n# second\n\xFF\n").unwrap_err().line, 3);
    }
}
