//! Hand-made parts, with what is expected of them. A file NAME.parts of the folder `hand` has
//!
//! ```text
//! part                 a part begins; its fields follow in the text form of a trace
//! lengths 25 18        this table of lengths, in place of the parts' own
//! room 43              an output of so many bytes, in place of as many as the parts have
//! ```
//!
//! and NAME.expected the joined trace in the text form, or `refused`, the number and the place.

use std::fs;
use std::path::{Path, PathBuf};

use second::trace::Refusal;
use trace::text;

use crate::both::{compare, hold, Joined};

const FOLDER: &str = concat!(env!("CARGO_MANIFEST_DIR"), "/hand");

/// What stands in the output before.
const FILLED: u8 = 0xA5;

#[derive(Default)]
struct Case {
    /// The text of each part.
    parts: Vec<String>,
    lengths: Option<Vec<u64>>,
    room: Option<usize>,
}

/// Every file, in the order of their names.
pub fn files() -> Result<Vec<PathBuf>, String> {
    let told = |error| format!("{FOLDER}: {error}");
    let mut files = Vec::new();
    for entry in fs::read_dir(FOLDER).map_err(told)? {
        let path = entry.map_err(told)?.path();
        if path.extension().is_some_and(|extension| extension == "parts") {
            files.push(path);
        }
    }
    files.sort();
    hold(!files.is_empty(), || format!("{FOLDER} has no parts"))?;
    Ok(files)
}

fn read(file: &Path) -> Result<String, String> {
    fs::read_to_string(file).map_err(|error| format!("{}: {error}", file.display()))
}

fn case(text: &str) -> Result<Case, String> {
    let mut case = Case::default();
    for (number, line) in (1..).zip(text.lines()) {
        let words: Vec<&str> = line.split('#').next().unwrap_or("").split_whitespace().collect();
        let no_number = |_| format!("line {number}: no number");
        match (&words[..], case.parts.last_mut()) {
            (["part"], _) => case.parts.push(String::new()),
            (["lengths", lengths @ ..], _) => {
                let lengths: Result<Vec<u64>, _> = lengths.iter().map(|word| word.parse()).collect();
                case.lengths = Some(lengths.map_err(no_number)?);
            }
            (["room", room], _) => case.room = Some(room.parse().map_err(no_number)?),
            ([], _) => {}
            (_, Some(part)) => *part += &format!("{line}\n"),
            (_, None) => return Err(format!("line {number} stands in no part")),
        }
    }
    Ok(case)
}

fn bytes(text: &str) -> Result<Vec<u8>, String> {
    text::write(text).map_err(|wrong| format!("line {} of a part: {}", wrong.line, wrong.what))
}

fn expected(text: &str) -> Result<Joined, String> {
    let words: Vec<&str> = text.split_whitespace().collect();
    let ["refused", number, offset] = words[..] else { return bytes(text).map(Ok) };
    match (number.parse(), offset.parse()) {
        (Ok(number), Ok(offset)) => Ok(Err(Refusal { number, offset })),
        _ => Err("no number is expected".into()),
    }
}

pub fn run(file: &Path) -> Result<(), String> {
    let Case { parts, lengths, room } = case(&read(file)?)?;
    let parts: Vec<Vec<u8>> = parts.iter().map(|part| bytes(part)).collect::<Result<_, _>>()?;
    let own = parts.iter().map(|part| part.len() as u64).collect();
    let slice = parts.concat();
    let before = vec![FILLED; room.unwrap_or(slice.len())];
    let found = compare(&slice, &lengths.unwrap_or(own), &before)?;
    let expected = expected(&read(&file.with_extension("expected"))?)?;
    hold(found == expected, || format!("both answer {found:02X?} and not {expected:02X?}"))
}
