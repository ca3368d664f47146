//! `second`            replays the trace on standard input
//! `second --check`    the same, and holds every event to the documents and the tender
//! `second --report`   reports the trace on standard input: a line for each closed cycle
//! `second --row NAME MOST`
//!                     turns the trace on standard input into a row that the proved rules compute;
//!                     into nothing where it is refused or has more events than MOST
//! `second --many FOLDER FIRST COUNT [FIRST COUNT ..]`
//!                     makes and checks COUNT traces from the seed FIRST on, says what was
//!                     reached, and keeps a trace that fails in the folder
//! `second --join PART [PART ..]`
//!                     writes the trace that these parts are joined to; or on standard error
//!                     `refused`, the number and the place in the parts as they lie end to end
//!
//! Leaves with 0, also after a refused trace; with 1 if a check did not hold, if something was
//! never reached, if parts are refused or if reading or writing failed; with 2 if called otherwise.

use std::io::{self, BufWriter, Read, Write};
use std::path::Path;
use std::process::ExitCode;

use second::check::Check;
use second::join::join;
use second::many::{many, Failure};
use second::replay::{replay, Ending};
use second::report::report;
use second::row::row;
use second::tally::Tally;

fn main() -> ExitCode {
    let arguments: Vec<String> = std::env::args().skip(1).collect();
    let words: Vec<&str> = arguments.iter().map(String::as_str).collect();
    let done = match words[..] {
        [] => replay_input(false),
        ["--check"] => replay_input(true),
        ["--report"] => report_input(),
        ["--row", name, most] => match most.parse() {
            Ok(most) => row_of_input(name, most),
            Err(_) => return usage(),
        },
        ["--many", folder, ref seeds @ ..] => match ranges(seeds) {
            Some(ranges) => check_many(Path::new(folder), &ranges),
            None => return usage(),
        },
        ["--join", ref files @ ..] if !files.is_empty() => join_files(files),
        _ => return usage(),
    };
    match done {
        Ok(true) => ExitCode::SUCCESS,
        Ok(false) => ExitCode::FAILURE,
        Err(error) => {
            let _ = writeln!(io::stderr(), "second: {error}");
            ExitCode::FAILURE
        }
    }
}

fn usage() -> ExitCode {
    let ways = "second [--check | --report] < BYTES | second --row NAME MOST < BYTES | \
                second --many FOLDER FIRST COUNT [FIRST COUNT ..] | second --join PART [PART ..]";
    let _ = writeln!(io::stderr(), "usage: {ways}");
    ExitCode::from(2)
}

fn input() -> io::Result<Vec<u8>> {
    let mut trace = Vec::new();
    io::stdin().read_to_end(&mut trace)?;
    Ok(trace)
}

fn row_of_input(name: &str, most: usize) -> io::Result<bool> {
    let row = row(name, &input()?, most).unwrap_or_default();
    io::stdout().write_all(row.as_bytes())?;
    Ok(true)
}

fn replay_input(checked: bool) -> io::Result<bool> {
    let trace = input()?;
    let mut out = BufWriter::new(io::stdout().lock());
    let mut tally = Tally::default();
    let mut check = Check::new(&mut tally);
    let ending = replay(&trace, &mut out, checked.then_some(&mut check))?;
    out.flush()?;
    if let Ending::Broken { step, sentence } = ending {
        writeln!(io::stderr(), "failed at step {step}: {sentence}")?;
        return Ok(false);
    }
    Ok(true)
}

fn report_input() -> io::Result<bool> {
    let mut out = BufWriter::new(io::stdout().lock());
    report(&input()?, &mut out)?;
    out.flush()?;
    Ok(true)
}

fn join_files(files: &[&str]) -> io::Result<bool> {
    let parts: Vec<Vec<u8>> = files.iter().map(std::fs::read).collect::<io::Result<_>>()?;
    let lengths: Vec<u64> = parts.iter().map(|part| part.len() as u64).collect();
    let slice = parts.concat();
    match join(&slice, &lengths, slice.len()) {
        Ok(joined) => io::stdout().write_all(&joined).map(|()| true),
        Err(refusal) => {
            writeln!(io::stderr(), "refused {} {}", refusal.number, refusal.offset)?;
            Ok(false)
        }
    }
}

/// Pairs of a first seed and how many.
fn ranges(seeds: &[&str]) -> Option<Vec<(u64, u64)>> {
    let numbers: Vec<u64> = seeds.iter().map(|word| word.parse().ok()).collect::<Option<_>>()?;
    let whole = !numbers.is_empty() && numbers.len().is_multiple_of(2);
    whole.then(|| numbers.chunks(2).map(|pair| (pair[0], pair[1])).collect())
}

fn check_many(folder: &Path, ranges: &[(u64, u64)]) -> io::Result<bool> {
    let mut tally = Tally::default();
    for (first, how_many) in ranges {
        if let Err(failure) = many(*first, *how_many, &mut tally) {
            keep(folder, &failure)?;
            return Ok(false);
        }
    }
    let mut out = io::stdout().lock();
    write!(out, "{tally}")?;
    let faults = tally.faults();
    for fault in &faults {
        writeln!(out, "{fault}")?;
    }
    Ok(faults.is_empty())
}

/// Keeps the trace of a failure and says how to run it alone.
fn keep(folder: &Path, failure: &Failure) -> io::Result<()> {
    std::fs::create_dir_all(folder)?;
    let file = folder.join(format!("seed-{}.bytes", failure.seed));
    std::fs::write(&file, &failure.trace)?;
    let second = std::env::args().next().unwrap_or("second".into());
    let mut out = io::stdout().lock();
    writeln!(out, "seed {} failed at {}", failure.seed, failure.what)?;
    writeln!(out, "the trace is kept; run it alone: {second} --check < {}", file.display())
}
