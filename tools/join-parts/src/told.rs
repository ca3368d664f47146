//! In words, which file is refused, where and why. That parts are refused, and which place, the proved
//! call has found; here it is told.

use std::path::PathBuf;

use second::trace::{Field, Reader};
use trace::text;
use yuyarisun::{Refusal, Sizes, Unjoined, Within};

/// Parts from files, laid end to end.
pub struct Parts {
    pub files: Vec<PathBuf>,
    pub bytes: Vec<u8>,
    pub lengths: Vec<u64>,
}

impl Parts {
    pub fn told(&self, unjoined: Unjoined) -> String {
        let words = unjoined.words();
        let number = unjoined.refusal.number();
        match (unjoined.within, unjoined.refusal) {
            (Some(Within { part, place }), _) => {
                let (file, field) = (self.file(part), field_at(&self.part(part)[place..]));
                format!("{file} is refused by {number} at byte {place}, {field}: {words}")
            }
            (None, Refusal::WrongSize) => {
                format!("refused by {number}: the parts are one to nine, and here are {}", self.files.len())
            }
            (None, Refusal::SizesDiffer) => format!("refused by {number}: {words}{}", self.other_sizes()),
            (None, Refusal::WrongStep) => format!("refused by {number}: {words}{}", self.wrong_step()),
            _ => format!("refused by {number}: {words}"),
        }
    }

    fn file(&self, part: usize) -> String {
        self.files[part].display().to_string()
    }

    fn part(&self, part: usize) -> &[u8] {
        let lengths = |parts: &[u64]| parts.iter().sum::<u64>() as usize;
        &self.bytes[lengths(&self.lengths[..part])..lengths(&self.lengths[..=part])]
    }

    /// The first part whose sizes are not the first one's.
    fn other_sizes(&self) -> String {
        let sizes = |part| Sizes::of_trace(self.part(part));
        let Some(other) = (0..self.files.len()).find(|part| sizes(*part) != sizes(0)) else {
            return String::new();
        };
        let line = |part| field_at(self.part(part));
        format!(": {} begins with {}, and {} with {}", self.file(0), line(0), self.file(other), line(other))
    }

    /// The lowest step number that stands in no part or in two.
    fn wrong_step(&self) -> String {
        let each = (0..self.files.len()).flat_map(|part| {
            let steps = steps(self.part(part));
            steps.into_iter().map(move |step| (step, part))
        });
        let mut all: Vec<(u32, usize)> = each.collect();
        all.sort_unstable();
        let Some((at, (step, part))) = (1..).zip(&all).find(|(at, (step, _))| at != step) else {
            return String::new();
        };
        if *step < at {
            let (_, before) = all[at as usize - 2];
            return format!(": {step} stands in {} and in {}", self.file(before), self.file(*part));
        }
        format!(": {at} stands in no part")
    }
}

/// The step numbers of a part that is whole.
fn steps(part: &[u8]) -> Vec<u32> {
    let mut reader = Reader::of_part(part);
    let mut steps = Vec::new();
    while let Ok(Some(field)) = reader.next_field() {
        if let Field::Event { step, .. } = field {
            steps.push(step);
        }
    }
    steps
}

/// What stands at the beginning of some bytes: a field of at most 13 bytes, or what is none.
fn field_at(rest: &[u8]) -> String {
    let shown = text::show(&rest[..rest.len().min(13)]);
    match shown.lines().next().and_then(|line| line.split('#').next()) {
        Some(line) => format!("`{}`", line.trim_end()),
        None => "where it ends".into(),
    }
}
