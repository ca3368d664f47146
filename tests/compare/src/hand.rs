//! How a trace is handed to a program's standard input, and what it prints.

use std::fmt;
use std::fs::File;
use std::io::{self, Read, Seek, Write};
use std::os::fd::OwnedFd;
use std::os::unix::net::UnixDatagram;
use std::process::{Child, Command, Stdio};
use std::sync::mpsc;
use std::thread;
use std::time::Duration;

use second::random::Random;

/// The room that `replay` reads its input into.
pub const ROOM: usize = 16_384;

/// A program that prints nothing more for so long hangs.
const PATIENCE: Duration = Duration::from_secs(60);

/// The most bytes of a piece.
const PIECE: usize = 40;

#[derive(Clone, Copy, Debug, PartialEq, Eq)]
pub enum Way {
    /// A pipe, as in a shell: a read takes what is there.
    Pipe,
    /// A file: a read takes as much as it has room for.
    File,
    /// A socket that keeps the pieces apart: a read takes one piece, of 1 to 40 bytes.
    Pieces { seed: u64 },
}

impl Way {
    pub fn of_name(name: &str) -> Option<Way> {
        match name {
            "pipe" => Some(Way::Pipe),
            "file" => Some(Way::File),
            _ => Some(Way::Pieces { seed: name.strip_prefix("pieces:")?.parse().ok()? }),
        }
    }
}

impl fmt::Display for Way {
    fn fmt(&self, out: &mut fmt::Formatter) -> fmt::Result {
        match self {
            Way::Pipe => write!(out, "pipe"),
            Way::File => write!(out, "file"),
            Way::Pieces { seed } => write!(out, "pieces:{seed}"),
        }
    }
}

/// The pieces that this seed cuts a trace into.
pub fn pieces(trace: &[u8], seed: u64) -> Vec<&[u8]> {
    let mut random = Random::new(seed);
    let mut rest = trace;
    let mut pieces = Vec::new();
    while !rest.is_empty() {
        let (piece, after) = rest.split_at(rest.len().min(1 + random.below(PIECE)));
        pieces.push(piece);
        rest = after;
    }
    pieces
}

/// What a program did with a trace.
#[derive(Debug)]
pub enum Outcome {
    Printed(Vec<u8>),
    /// It hung, broke off, or printed more than was asked for.
    Strayed(String),
}

/// Runs the program on a trace and takes up to `most` bytes of what it prints.
pub fn run(program: &str, trace: &[u8], way: Way, most: usize) -> io::Result<Outcome> {
    match way {
        Way::Pipe => {
            let (read, mut write) = io::pipe()?;
            watch(program, read.into(), most, move || write.write_all(trace))
        }
        Way::File => watch(program, file_of(trace)?.into(), most, || Ok(())),
        Way::Pieces { seed } => {
            let (read, write) = UnixDatagram::pair()?;
            watch(program, OwnedFd::from(read).into(), most, move || {
                pieces(trace, seed).into_iter().try_for_each(|piece| write.send(piece).map(|_| ()))?;
                // An empty piece: to the reader this is the end.
                write.send(&[]).map(|_| ())
            })
        }
    }
}

/// A file with these bytes that nobody else sees.
fn file_of(trace: &[u8]) -> io::Result<File> {
    let name = format!("compare-{}-{:?}", std::process::id(), thread::current().id());
    let path = std::env::temp_dir().join(name);
    let mut file = File::options().read(true).write(true).create_new(true).open(&path)?;
    std::fs::remove_file(&path)?;
    file.write_all(trace)?;
    file.rewind()?;
    Ok(file)
}

/// Feeds the program while it prints. That it stops reading early, as after a refusal, is its own
/// affair.
fn watch(
    program: &str,
    input: Stdio,
    most: usize,
    feed: impl FnOnce() -> io::Result<()> + Send,
) -> io::Result<Outcome> {
    let mut child = Command::new(program).stdin(input).stdout(Stdio::piped()).spawn()?;
    let out = child.stdout.take();
    let (send, receive) = mpsc::channel();
    thread::scope(|scope| {
        scope.spawn(feed);
        scope.spawn(move || {
            let mut printed = Vec::new();
            let read = out.map(|out| out.take(most as u64 + 1).read_to_end(&mut printed));
            // Nobody waits any more once the patience is over.
            let _ = send.send(read.transpose().map(|_| printed));
        });
        let outcome = match receive.recv_timeout(PATIENCE) {
            Ok(printed) => ended(&mut child, printed?, most)?,
            Err(_) => Outcome::Strayed("it does not end".into()),
        };
        if let Outcome::Strayed(_) = outcome {
            child.kill()?;
        }
        child.wait()?;
        Ok(outcome)
    })
}

fn ended(child: &mut Child, printed: Vec<u8>, most: usize) -> io::Result<Outcome> {
    if printed.len() > most {
        return Ok(Outcome::Strayed("it prints more lines than the second program".into()));
    }
    let status = child.wait()?;
    Ok(if status.success() {
        Outcome::Printed(printed)
    } else {
        Outcome::Strayed(format!("it leaves with {status}"))
    })
}
