//! One trace, replayed and reported by the proved programs and by the second one, and turned into text
//! and back.

use std::io;

use second::replay::replay;
use second::report::report;
use trace::text;

use crate::cover::Cover;
use crate::hand::{run, Outcome, Way};

/// The two proved programs.
#[derive(Clone, Copy)]
pub struct Programs<'a> {
    pub replay: &'a str,
    pub report: &'a str,
}

/// In what one of them and the second program differ.
#[derive(Debug, PartialEq, Eq)]
pub struct Difference(pub String);

/// Compares what the two programs print with what the second program prints.
pub fn judge(
    programs: Programs,
    trace: &[u8],
    way: Way,
    cover: &mut Cover,
) -> io::Result<Option<Difference>> {
    if text::write(&text::show(trace)).as_deref() != Ok(trace) {
        return Ok(Some(Difference("its text form does not give the same bytes".into())));
    }
    let (mut lines, mut reported) = (Vec::new(), Vec::new());
    let ending = replay(trace, &mut lines, None)?;
    report(trace, &mut reported)?;
    cover.trace(trace, way, &ending, &lines);
    match prints(programs.replay, trace, way, &lines)? {
        None => prints(programs.report, trace, way, &reported),
        differs => Ok(differs),
    }
}

/// A program prints what is expected.
fn prints(program: &str, trace: &[u8], way: Way, expected: &[u8]) -> io::Result<Option<Difference>> {
    let differs = match run(program, trace, way, expected.len())? {
        Outcome::Printed(printed) => difference(expected, &printed),
        Outcome::Strayed(how) => Some(Difference(how)),
    };
    Ok(differs.map(|Difference(what)| Difference(format!("{program}: {what}"))))
}

fn difference(expected: &[u8], printed: &[u8]) -> Option<Difference> {
    if expected == printed {
        return None;
    }
    let (expected, printed) = (String::from_utf8_lossy(expected), String::from_utf8_lossy(printed));
    let mut lines = (1..).zip(expected.split_inclusive('\n').zip(printed.split_inclusive('\n')));
    let first = lines.find(|(_, (second, proved))| second != proved);
    Some(Difference(match first {
        Some((line, (second, proved))) => {
            format!("line {line} is {proved:?}, and by the second program {second:?}")
        }
        None => "it prints fewer lines than the second program".into(),
    }))
}

#[cfg(test)]
mod tests {
    use super::*;

    #[test]
    fn the_first_line_that_differs_is_named() {
        let said = |expected: &str, printed: &str| {
            difference(expected.as_bytes(), printed.as_bytes()).map(|Difference(what)| what)
        };
        assert_eq!(said("1 0 1\nend 1 0\n", "1 0 1\nend 1 0\n"), None);
        let second = said("1 0 1\n2 0 0\nend 1 0\n", "1 0 1\n2 0 1\nend 2 0\n");
        assert_eq!(second.as_deref(), Some(r#"line 2 is "2 0 1\n", and by the second program "2 0 0\n""#));
        let unfinished = said("end 1 0\n", "end 1 0");
        assert_eq!(
            unfinished.as_deref(),
            Some(r#"line 1 is "end 1 0", and by the second program "end 1 0\n""#)
        );
        let fewer = said("1 0 1\nend 1 0\n", "1 0 1\n");
        assert_eq!(fewer.as_deref(), Some("it prints fewer lines than the second program"));
    }
}
