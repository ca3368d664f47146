//! `compare REPLAY REPORT FOLDER FIRST COUNT [FIRST COUNT ..]`
//!                     has the program REPLAY replay, and the program REPORT report, the traces
//!                     that COUNT seeds from FIRST on make, and others, and compares what they
//!                     print with the second program; says what was covered, and keeps the first
//!                     trace that differs in the folder
//! `compare --one REPLAY REPORT FILE [WAY]`
//!                     the same for the trace in a file; WAY says how it is handed over: pipe
//!                     (the default), file, or pieces:SEED
//!
//! Leaves with 0; with 1 if a program and the second one differ, if something was never covered or if
//! a program could not be run; with 2 if called otherwise.
//!
//! - `task`       which traces are compared
//! - `hand`       how a trace is handed to a program
//! - `judge`      one trace, replayed and reported
//! - `cover`      what a set of traces covered

#![forbid(unsafe_code)]

mod cover;
mod hand;
mod judge;
mod task;

use std::io::{self, Write};
use std::path::Path;
use std::process::ExitCode;
use std::sync::{Mutex, MutexGuard, PoisonError};
use std::thread;

use crate::cover::Cover;
use crate::hand::Way;
use crate::judge::{judge, Difference, Programs};
use crate::task::{tasks, Task};

fn main() -> ExitCode {
    let arguments: Vec<String> = std::env::args().skip(1).collect();
    let words: Vec<&str> = arguments.iter().map(String::as_str).collect();
    let agreed = match words[..] {
        ["--one", replay, report, file] => one(Programs { replay, report }, file, Way::Pipe),
        ["--one", replay, report, file, way] => match Way::of_name(way) {
            Some(way) => one(Programs { replay, report }, file, way),
            None => return usage(),
        },
        [replay, report, folder, ref seeds @ ..] => match ranges(seeds) {
            Some(ranges) => many(Programs { replay, report }, Path::new(folder), &ranges),
            None => return usage(),
        },
        _ => return usage(),
    };
    match agreed {
        Ok(true) => ExitCode::SUCCESS,
        Ok(false) => ExitCode::FAILURE,
        Err(error) => {
            let _ = writeln!(io::stderr(), "compare: {error}");
            ExitCode::FAILURE
        }
    }
}

fn usage() -> ExitCode {
    let ways = "compare REPLAY REPORT FOLDER FIRST COUNT [FIRST COUNT ..] | \
                compare --one REPLAY REPORT FILE [pipe|file|pieces:SEED]";
    let _ = writeln!(io::stderr(), "usage: {ways}");
    ExitCode::from(2)
}

/// Pairs of a first seed and how many.
fn ranges(seeds: &[&str]) -> Option<Vec<(u64, u64)>> {
    let numbers: Vec<u64> = seeds.iter().map(|word| word.parse().ok()).collect::<Option<_>>()?;
    let whole = !numbers.is_empty() && numbers.len().is_multiple_of(2);
    whole.then(|| numbers.chunks(2).map(|pair| (pair[0], pair[1])).collect())
}

fn one(programs: Programs, file: &str, way: Way) -> io::Result<bool> {
    let trace = std::fs::read(file)?;
    let mut out = io::stdout().lock();
    match judge(programs, &trace, way, &mut Cover::default())? {
        Some(Difference(what)) => {
            writeln!(out, "{file}: {what}")?;
            Ok(false)
        }
        None => {
            writeln!(out, "{file}: no difference")?;
            Ok(true)
        }
    }
}

/// A trace on which a program and the second one differ.
struct Failure {
    task: Task,
    trace: Vec<u8>,
    difference: Difference,
}

fn many(programs: Programs, folder: &Path, ranges: &[(u64, u64)]) -> io::Result<bool> {
    let waiting = Mutex::new(tasks(ranges));
    let found: Mutex<Option<Failure>> = Mutex::new(None);
    let threads = thread::available_parallelism().map_or(1, usize::from);
    let cover = thread::scope(|scope| {
        let work = || work(programs, &waiting, &found);
        let working: Vec<_> = (0..threads).map(|_| scope.spawn(work)).collect();
        working.into_iter().try_fold(Cover::default(), |sum, thread| match thread.join() {
            Ok(cover) => Ok(sum.and(cover?)),
            Err(_) => Err(io::Error::other("a thread of the comparison broke off")),
        })
    })?;
    if let Some(failure) = locked(&found).as_ref() {
        keep(programs, folder, failure)?;
        return Ok(false);
    }
    let mut out = io::stdout().lock();
    write!(out, "{cover}")?;
    let faults = cover.faults();
    for fault in &faults {
        writeln!(out, "{fault}")?;
    }
    Ok(faults.is_empty())
}

/// Takes task after task until none is left or a difference is found.
fn work(
    programs: Programs,
    waiting: &Mutex<impl Iterator<Item = Task>>,
    found: &Mutex<Option<Failure>>,
) -> io::Result<Cover> {
    let mut cover = Cover::default();
    loop {
        if locked(found).is_some() {
            return Ok(cover);
        }
        let Some(task) = locked(waiting).next() else {
            return Ok(cover);
        };
        let trace = task.trace();
        if let Some(difference) = judge(programs, &trace, task.way(), &mut cover)? {
            locked(found).get_or_insert(Failure { task, trace, difference });
        }
    }
}

/// That another thread broke off with the lock is told when that thread is joined.
fn locked<T>(shared: &Mutex<T>) -> MutexGuard<'_, T> {
    shared.lock().unwrap_or_else(PoisonError::into_inner)
}

/// Keeps the trace of a failure and says how to run it alone.
fn keep(programs: Programs, folder: &Path, failure: &Failure) -> io::Result<()> {
    std::fs::create_dir_all(folder)?;
    let file = folder.join(format!("{}.bytes", failure.task));
    std::fs::write(&file, &failure.trace)?;
    let compare = std::env::args().next().unwrap_or("compare".into());
    let (file, way, Difference(what)) = (file.display(), failure.task.way(), &failure.difference);
    let Programs { replay, report } = programs;
    let mut out = io::stdout().lock();
    writeln!(out, "{} ({way}): {what}", failure.task)?;
    writeln!(out, "the trace is kept; run it alone: {compare} --one {replay} {report} {file} {way}")
}
