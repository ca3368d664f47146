//! Instructions of single calls of a function, by callgrind: the same in each run, whatever else the
//! machine does.

use std::fs::{self, File};
use std::path::Path;
use std::process::Command;

/// callgrind, with what it takes to count alike wherever it runs.
fn callgrind(out: &Path) -> Command {
    let mut command = Command::new("valgrind");
    command
        .args(["--tool=callgrind", "--quiet"])
        .arg(format!("--callgrind-out-file={}", out.display()))
        // Boehm's collector marks in the thread that is counted.
        .env("GC_MARKERS", "1")
        // A string instruction counts once for each byte: long copies and fills go without them.
        .env(
            "GLIBC_TUNABLES",
            "glibc.cpu.x86_rep_movsb_threshold=1000000000:glibc.cpu.x86_rep_stosb_threshold=1000000000",
        );
    command
}

/// Runs it; what the program prints.
fn told(mut command: Command) -> Result<String, String> {
    let told = command.output().map_err(|why| format!("valgrind: {why}"))?;
    if !told.status.success() {
        return Err(format!("{command:?}: {}", String::from_utf8_lossy(&told.stderr)));
    }
    Ok(String::from_utf8_lossy(&told.stdout).into_owned())
}

/// Runs a program under callgrind. Each call of the function is counted by itself; the names are the
/// lines that the program prints, one for each call.
pub fn calls(
    program: &Path,
    words: &[&str],
    function: &str,
    folder: &Path,
) -> Result<Vec<(String, u64)>, String> {
    let mut command = callgrind(&folder.join("callgrind"));
    command
        .arg("--collect-atstart=no")
        .arg(format!("--toggle-collect={function}"))
        .arg(format!("--dump-after={function}"))
        .arg(program)
        .args(words);
    let names = told(command)?;
    names
        .lines()
        .enumerate()
        .map(|(i, name)| Ok((name.to_string(), total(&folder.join(format!("callgrind.{}", i + 1)))?)))
        .collect()
}

/// The instructions of a whole run on an input.
pub fn whole(program: &Path, input: &Path, folder: &Path) -> Result<u64, String> {
    let out = folder.join("callgrind.whole");
    let mut command = callgrind(&out);
    let input = File::open(input).map_err(|why| format!("{}: {why}", input.display()))?;
    command.arg(program).stdin(input);
    told(command)?;
    total(&out)
}

fn total(dump: &Path) -> Result<u64, String> {
    let text = fs::read_to_string(dump).map_err(|why| format!("{}: {why}", dump.display()))?;
    let total = text.lines().find_map(|line| line.strip_prefix("totals: "));
    total.and_then(|total| total.trim().parse().ok()).ok_or(format!("{}: no total", dump.display()))
}

/// Whether valgrind can be had.
pub fn is_there() -> bool {
    Command::new("valgrind").arg("--version").output().is_ok_and(|told| told.status.success())
}
