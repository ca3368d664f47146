//! Joins the parts of a trace, which are the files that it is called with, by the proved call, and
//! writes the trace: `tools/join --help` says more. Leaves with 0; with 1 if parts are refused or a
//! file can't be read or written.
//!
//! - `told`     in words, which file is refused, where and why

#![forbid(unsafe_code)]

mod told;

use std::fs;
use std::io::{self, ErrorKind, Write};
use std::path::{Path, PathBuf};
use std::process::ExitCode;

use told::Parts;
use trace::text;
use yuyarisun::join_into;

fn main() -> ExitCode {
    let files = std::env::args_os().skip(1).map(PathBuf::from).collect();
    match joined(files).and_then(|trace| print(&trace)) {
        Ok(()) => ExitCode::SUCCESS,
        Err(wrong) => {
            say(&wrong);
            ExitCode::FAILURE
        }
    }
}

/// Where standard error can't be written either, nobody can be told.
fn say(wrong: &str) {
    let _ = writeln!(io::stderr(), "tools/join: {wrong}");
}

/// The trace that the files are joined to.
fn joined(files: Vec<PathBuf>) -> Result<Vec<u8>, String> {
    let mut parts = Parts { files, bytes: Vec::new(), lengths: Vec::new() };
    for file in &parts.files {
        let part = read(file)?;
        parts.lengths.push(part.len() as u64);
        parts.bytes.extend(part);
    }
    let mut trace = vec![0; parts.bytes.len()];
    match join_into(&parts.bytes, &parts.lengths, &mut trace) {
        Ok(length) => {
            trace.truncate(length);
            Ok(trace)
        }
        Err(unjoined) => Err(parts.told(unjoined)),
    }
}

/// The bytes of a part.
fn read(file: &Path) -> Result<Vec<u8>, String> {
    let name = file.display();
    let bytes = fs::read(file).map_err(|error| format!("{name}: {error}"))?;
    if text::is_named(file) {
        return text::write_bytes(&bytes).map_err(|wrong| format!("{name}:{}: {}", wrong.line, wrong.what));
    }
    Ok(bytes)
}

/// A reader that has seen enough and leaves, as `head` does, is no error.
fn print(bytes: &[u8]) -> Result<(), String> {
    let mut out = io::stdout().lock();
    match out.write_all(bytes).and_then(|()| out.flush()) {
        Err(error) if error.kind() != ErrorKind::BrokenPipe => Err(format!("standard output: {error}")),
        _ => Ok(()),
    }
}
