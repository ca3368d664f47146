//! `trace write`, `trace show`, `trace make`, `trace split`: `trace --help` says more.

use std::fs;
use std::io::{self, ErrorKind, Read, Write};
use std::path::Path;
use std::process::ExitCode;

use second::maker::make;
use trace::command::{command, Command, Source};
use trace::split::split;
use trace::text;

fn main() -> ExitCode {
    let arguments: Vec<_> =
        std::env::args_os().skip(1).map(|word| word.to_string_lossy().into_owned()).collect();
    let words: Vec<&str> = arguments.iter().map(String::as_str).collect();
    let command = match command(&words) {
        Ok(command) => command,
        Err(misused) => {
            say(&format!("{}\n\n{}", misused.what, misused.help.trim_end()));
            return ExitCode::from(2);
        }
    };
    match output(&command).and_then(|bytes| print(&bytes)) {
        Ok(()) => ExitCode::SUCCESS,
        Err(wrong) => {
            say(&wrong);
            ExitCode::FAILURE
        }
    }
}

/// Where standard error can't be written either, nobody can be told.
fn say(wrong: &str) {
    let _ = writeln!(io::stderr(), "trace: {wrong}");
}

fn output(command: &Command) -> Result<Vec<u8>, String> {
    match command {
        Command::Help(help) => Ok(help.as_bytes().to_vec()),
        Command::Write(source) => write(source),
        Command::Show(source) => Ok(text::show(&input(source)?).into_bytes()),
        Command::Make { seed } => Ok(make(*seed).trace),
        Command::Split { source, folder } => write_parts(source, folder),
    }
}

fn name(source: &Source) -> String {
    match source {
        Source::StandardInput => "standard input".into(),
        Source::File(path) => path.display().to_string(),
    }
}

fn input(source: &Source) -> Result<Vec<u8>, String> {
    let read = match source {
        Source::File(path) => fs::read(path),
        Source::StandardInput => {
            let mut bytes = Vec::new();
            io::stdin().read_to_end(&mut bytes).map(|_| bytes)
        }
    };
    read.map_err(|error| format!("{}: {error}", name(source)))
}

fn write(source: &Source) -> Result<Vec<u8>, String> {
    text::write_bytes(&input(source)?)
        .map_err(|wrong| format!("{}:{}: {}", name(source), wrong.line, wrong.what))
}

/// Writes the parts of a trace into a folder, which is made where it is missing; the names of the
/// files, one on a line.
fn write_parts(source: &Source, folder: &Path) -> Result<Vec<u8>, String> {
    let trace = match source {
        Source::File(path) if text::is_named(path) => write(source)?,
        _ => input(source)?,
    };
    let parts = split(&trace).map_err(|refusal| {
        let (number, offset) = (refusal.number, refusal.offset);
        format!("{}: no whole trace: it is refused by {number} at byte {offset}", name(source))
    })?;
    let told = |path: &Path, error: io::Error| format!("{}: {error}", path.display());
    fs::create_dir_all(folder).map_err(|error| told(folder, error))?;
    let mut names = String::new();
    for part in parts {
        let path = folder.join(part.name + ".part");
        fs::write(&path, part.bytes).map_err(|error| told(&path, error))?;
        names += &format!("{}\n", path.display());
    }
    Ok(names.into_bytes())
}

/// A reader that has seen enough and leaves, as `head` does, is no error.
fn print(bytes: &[u8]) -> Result<(), String> {
    let mut out = io::stdout().lock();
    match out.write_all(bytes).and_then(|()| out.flush()) {
        Err(error) if error.kind() != ErrorKind::BrokenPipe => Err(format!("standard output: {error}")),
        _ => Ok(()),
    }
}
