//! A program run on a trace: its processor time, for on a machine with other work the time of a
//! clock says little, and its peak of memory.

use std::fs::{self, File};
use std::io;
use std::os::fd::AsRawFd;
use std::path::Path;
use std::process::{Command, Stdio};
use std::thread;
use std::time::Duration;

/// `struct rusage` of Linux on 64 bits.
#[repr(C)]
#[derive(Default)]
struct Usage {
    user: [i64; 2],
    system: [i64; 2],
    others: [i64; 14],
}

extern "C" {
    fn wait4(pid: i32, status: *mut i32, options: i32, usage: *mut Usage) -> i32;
    fn ioctl(file: i32, request: u64, ...) -> i32;
}

/// Asks how many bytes of a pipe have not been read.
const FIONREAD: u64 = 0x541B;

/// Runs a program with a file as its input, and what it prints goes to another file; the seconds of
/// processor time that it took.
pub fn seconds(program: &Path, input: &Path, output: &Path) -> io::Result<f64> {
    let child =
        Command::new(program).stdin(File::open(input)?).stdout(Stdio::from(File::create(output)?)).spawn()?;
    let (mut status, mut usage) = (0, Usage::default());
    // The child is waited for here, and `child` is not asked again.
    let ended = unsafe { wait4(child.id() as i32, &mut status, 0, &mut usage) };
    if ended < 0 {
        return Err(io::Error::last_os_error());
    }
    if status != 0 {
        return Err(io::Error::other(format!("{} ended with the status {status}", program.display())));
    }
    let seconds = |time: [i64; 2]| time[0] as f64 + time[1] as f64 / 1e6;
    Ok(seconds(usage.user) + seconds(usage.system))
}

/// The most memory that a program had resident at a time, in KiB, when it had been given all of its
/// input and waited for more. (What `wait4` tells at the end has the parent's memory in it.)
pub fn peak(program: &Path, input: &Path) -> io::Result<u64> {
    let mut child = Command::new(program).stdin(Stdio::piped()).stdout(Stdio::null()).spawn()?;
    let mut pipe = child.stdin.take().ok_or(io::Error::other("no pipe"))?;
    io::copy(&mut File::open(input)?, &mut pipe)?;
    let mut unread: i32 = 1;
    while unread > 0 {
        thread::sleep(Duration::from_millis(20));
        if unsafe { ioctl(pipe.as_raw_fd(), FIONREAD, &mut unread) } < 0 {
            return Err(io::Error::last_os_error());
        }
    }
    thread::sleep(Duration::from_millis(20));
    let status = fs::read_to_string(format!("/proc/{}/status", child.id()))?;
    drop(pipe);
    child.wait()?;
    let peak = status.lines().find_map(|line| line.strip_prefix("VmHWM:"));
    let kibibytes =
        peak.and_then(|peak| peak.trim().strip_suffix(" kB")).and_then(|peak| peak.trim().parse().ok());
    kibibytes.ok_or(io::Error::other("no peak of memory is told"))
}
