//! What `trace` is called with, and what `--help` says.

use std::path::PathBuf;

/// Where a trace or its text is read from.
#[derive(Clone, Debug, PartialEq, Eq)]
pub enum Source {
    StandardInput,
    File(PathBuf),
}

#[derive(Clone, Debug, PartialEq, Eq)]
pub enum Command {
    Help(&'static str),
    Write(Source),
    Show(Source),
    Make { seed: u64 },
    Split { source: Source, folder: PathBuf },
}

/// What is wrong with a call, and the help of the part that it was meant for.
#[derive(Clone, Debug, PartialEq, Eq)]
pub struct Misused {
    pub what: String,
    pub help: &'static str,
}

pub const HELP: &str = "\
usage: trace write [FILE]    a trace in the text form to bytes, for `replay`
       trace show [FILE]     bytes to the text form, damaged ones too
       trace make SEED       the bytes of the trace that a seed makes
       trace split FILE FOLDER
                             a whole trace to parts, one for each worker and one for the collector
       trace PART --help     more about one of these

Without a FILE, or with -, standard input is read. What comes out goes to standard output.
Leaves with 0; with 1 if the input is wrong or can't be read; with 2 if called otherwise.
";

const WRITE: &str = "\
usage: trace write [FILE]

Turns a trace in the text form into bytes. One field on a line; # begins a comment; numbers are
decimal; a line that can't be understood is named, and then nothing is written.

    sizes N K W R [B]     N records, K links in each, W workers, R registers per worker, B board
                          entries; without B the field has length 8, which says that there are none
    make w r              worker w makes a record, register r holds it
    move w r q            register r takes what q holds
    drop w r              register r becomes none
    load w r q f          register r takes link f of the record in q
    store w q f r         link f of the record in q takes what r holds
    look w r e            register r takes what board entry e holds
    post w e r            board entry e takes what register r holds
    collect               one step of the collector
    times COUNT EVENT     the event so many times
    end                   the end field
    raw 20 0004 00000001  bytes in hexadecimal, as they are

A step number may stand before an event, as in `9 collect`, and a count after `end`; left out, they
are what they should be. Nothing is checked beyond that: a trace that a replay refuses can be
written too.

    trace write my.trace > my.bytes
";

const SHOW: &str = "\
usage: trace show [FILE]

Shows the bytes of a trace in the text form. Each line says at which offset it begins, which is the
place that `refused` names. From the first byte on that begins no whole field, the rest is shown as
`raw`. `trace write` of what is shown gives the same bytes again.

    trace show my.bytes
";

const MAKE: &str = "\
usage: trace make SEED

Writes the bytes of the trace that the seed makes, a number below 2 to the 64th. The same seed makes
the same trace everywhere. One in four traces is damaged.

    trace make 7 > seven.bytes
";

const SPLIT: &str = "\
usage: trace split FILE FOLDER

Deals a whole trace out into parts, one for each worker and one for the collector, which `tools/join`
joins to the same trace again. Each part has the trace's sizes field, its own events with their step
numbers, and an end field with how many these are. An event of a worker that the pool does not have
goes to the collector's part. FILE is in bytes, or in the text form if its name ends in .trace; with -
standard input is read. The parts are FOLDER/worker-0.part and so on and FOLDER/collector.part; their
names are printed.

    trace split my.bytes parts
    tools/join parts/*.part > again.bytes
";

/// What the words after the program's name ask for.
pub fn command(words: &[&str]) -> Result<Command, Misused> {
    let Some((part, others)) = words.split_first() else {
        return Err(Misused { what: "write, show, make or split?".into(), help: HELP });
    };
    match *part {
        "--help" | "-h" | "help" => Ok(Command::Help(HELP)),
        "write" => with_help(others, WRITE, |words| source(words).map(Command::Write)),
        "show" => with_help(others, SHOW, |words| source(words).map(Command::Show)),
        "make" => with_help(others, MAKE, |words| seed(words).map(|seed| Command::Make { seed })),
        "split" => with_help(others, SPLIT, split),
        other => {
            Err(Misused { what: format!("`{other}` is neither write, show, make nor split"), help: HELP })
        }
    }
}

fn with_help(
    words: &[&str],
    help: &'static str,
    read: impl Fn(&[&str]) -> Result<Command, String>,
) -> Result<Command, Misused> {
    if words.iter().any(|word| ["--help", "-h"].contains(word)) {
        return Ok(Command::Help(help));
    }
    read(words).map_err(|what| Misused { what, help })
}

fn source(words: &[&str]) -> Result<Source, String> {
    match words {
        [] | ["-"] => Ok(Source::StandardInput),
        [word] if word.starts_with('-') => {
            Err(format!("`{word}` is no option; a file of that name is ./{word}"))
        }
        [file] => Ok(Source::File(file.into())),
        _ => Err(format!("one file at most, and here are {}", words.len())),
    }
}

fn split(words: &[&str]) -> Result<Command, String> {
    let &[file, folder] = words else {
        return Err(format!("a file and a folder, and here are {}", words.len()));
    };
    Ok(Command::Split { source: source(&[file])?, folder: folder.into() })
}

fn seed(words: &[&str]) -> Result<u64, String> {
    let &[word] = words else {
        return Err("one seed".into());
    };
    word.parse().map_err(|_| format!("`{word}` is no seed: a number below 2 to the 64th"))
}

#[cfg(test)]
mod tests {
    use super::*;

    #[test]
    fn a_file_or_standard_input() {
        assert_eq!(command(&["write"]), Ok(Command::Write(Source::StandardInput)));
        assert_eq!(command(&["show", "-"]), Ok(Command::Show(Source::StandardInput)));
        assert_eq!(command(&["show", "a b"]), Ok(Command::Show(Source::File("a b".into()))));
        let split = Command::Split { source: Source::StandardInput, folder: "parts".into() };
        assert_eq!(command(&["split", "-", "parts"]), Ok(split));
    }

    #[test]
    fn help_for_the_tool_and_for_each_part() {
        for (words, help) in [
            (&["--help"][..], HELP),
            (&["write", "--help"], WRITE),
            (&["show", "-h"], SHOW),
            (&["make", "--help"], MAKE),
            (&["split", "a", "--help"], SPLIT),
        ] {
            assert_eq!(command(words), Ok(Command::Help(help)));
        }
    }

    #[test]
    fn a_call_that_means_nothing_is_told_what_is_wrong() {
        for (words, wrong) in [
            (&[][..], "write, show, make or split?"),
            (&["wrte"], "`wrte` is neither write, show, make nor split"),
            (&["write", "--quiet"], "`--quiet` is no option; a file of that name is ./--quiet"),
            (&["show", "a", "b"], "one file at most, and here are 2"),
            (&["split", "a"], "a file and a folder, and here are 1"),
            (&["split", "--quiet", "parts"], "`--quiet` is no option; a file of that name is ./--quiet"),
            (&["make"], "one seed"),
            (&["make", "-1"], "`-1` is no seed: a number below 2 to the 64th"),
        ] {
            assert_eq!(command(words).unwrap_err().what, wrong);
        }
    }
}
