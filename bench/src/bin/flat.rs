//! The replay program over a pool in flat arrays: reads a trace from standard input and prints what
//! the documents say that `replay` prints. A user's program, written for speed.

use bench::flat::Pool;
use std::io::{self, Read, StdinLock, StdoutLock, Write};

type Small = Pool<64, 4, 4, 8, 8>;

const INPUT: usize = 1 << 16;
const OUTPUT: usize = 1 << 16;
/// The longest line: three numbers of at most 20 digits and a word.
const LINE: usize = 80;

/// The digits of 0 to 99.
const PAIRS: [[u8; 2]; 100] = {
    let mut pairs = [[b'0'; 2]; 100];
    let mut n = 0;
    while n < 100 {
        pairs[n] = [b'0' + n as u8 / 10, b'0' + n as u8 % 10];
        n += 1;
    }
    pairs
};

/// Standard input through a buffer; what is asked for stands in one piece.
struct Input {
    from: StdinLock<'static>,
    buffer: Vec<u8>,
    at: usize,
    filled: usize,
    /// The offset of the buffer's first byte in the trace.
    base: u64,
}

impl Input {
    /// How many bytes are there, at least `wanted` unless the trace ends before.
    #[inline]
    fn there(&mut self, wanted: usize) -> io::Result<usize> {
        if self.filled - self.at < wanted {
            self.refill(wanted)?;
        }
        Ok(self.filled - self.at)
    }

    #[cold]
    fn refill(&mut self, wanted: usize) -> io::Result<()> {
        self.buffer.copy_within(self.at..self.filled, 0);
        self.base += self.at as u64;
        self.filled -= self.at;
        self.at = 0;
        while self.filled < wanted {
            let n = self.from.read(&mut self.buffer[self.filled..])?;
            if n == 0 {
                break;
            }
            self.filled += n;
        }
        Ok(())
    }

    fn offset(&self) -> u64 {
        self.base + self.at as u64
    }
}

struct Output {
    to: StdoutLock<'static>,
    buffer: Vec<u8>,
    at: usize,
}

impl Output {
    /// Two digits at a time, from a table.
    #[inline]
    fn decimal(&mut self, n: u64) {
        let long = n.checked_ilog10().unwrap_or(0) as usize + 1;
        let to = &mut self.buffer[self.at..self.at + long];
        let (mut left, mut at) = (n, long);
        while left >= 100 {
            at -= 2;
            to[at..at + 2].copy_from_slice(&PAIRS[(left % 100) as usize]);
            left /= 100;
        }
        if left >= 10 {
            to[..2].copy_from_slice(&PAIRS[left as usize]);
        } else {
            to[0] = b'0' + left as u8;
        }
        self.at += long;
    }

    #[inline]
    fn byte(&mut self, byte: u8) {
        self.buffer[self.at] = byte;
        self.at += 1;
    }

    /// A number that mostly has one digit.
    #[inline]
    fn short(&mut self, n: u16) {
        if n < 10 {
            self.byte(b'0' + n as u8);
        } else {
            self.decimal(n.into());
        }
    }

    fn word(&mut self, word: &[u8]) {
        self.buffer[self.at..self.at + word.len()].copy_from_slice(word);
        self.at += word.len();
    }

    fn two(&mut self, a: u64, b: u64) {
        self.decimal(a);
        self.byte(b' ');
        self.decimal(b);
        self.byte(b'\n');
    }

    #[inline]
    fn line(&mut self, step: u32, number: u16, value: u16) -> io::Result<()> {
        if self.at + LINE > OUTPUT {
            self.flush()?;
        }
        self.decimal(step.into());
        self.byte(b' ');
        self.short(number);
        self.byte(b' ');
        self.short(value);
        self.byte(b'\n');
        Ok(())
    }

    fn flush(&mut self) -> io::Result<()> {
        self.to.write_all(&self.buffer[..self.at])?;
        self.at = 0;
        Ok(())
    }
}

/// How a trace ends: the whole of it, or the number of a refusal and the offset.
enum Ending {
    Whole { free: usize, closed: u16 },
    Refused { number: u16, offset: u64 },
}

fn two_bytes(bytes: &[u8]) -> usize {
    u16::from_be_bytes([bytes[0], bytes[1]]) as usize
}

fn four_bytes(bytes: &[u8]) -> u32 {
    u32::from_be_bytes([bytes[0], bytes[1], bytes[2], bytes[3]])
}

fn sizes(input: &mut Input) -> io::Result<Result<Small, u16>> {
    let there = input.there(13)?;
    let field = &input.buffer[input.at..input.at + there.min(13)];
    if there < 3 {
        return Ok(Err(9));
    }
    if field[0] != 1 {
        return Ok(Err(7));
    }
    let long = two_bytes(&field[1..]);
    if long != 8 && long != 10 {
        return Ok(Err(8));
    }
    if there < 3 + long {
        return Ok(Err(9));
    }
    let size = |i: usize| two_bytes(&field[3 + 2 * i..]);
    let board = if long == 10 { size(4) } else { 0 };
    let pool = Small::fresh(size(0), size(1), size(2), size(3), board);
    input.at += 3 + long;
    Ok(pool.ok_or(1))
}

fn payload_of(tag: u8) -> usize {
    match tag {
        0x10 | 0x12 => 6,
        0x11 | 0x15 | 0x16 => 7,
        0x13 | 0x14 => 8,
        0x20 | 0x7F => 4,
        _ => 0,
    }
}

/// Why a field is refused before its numbers are looked at.
#[cold]
fn refusal(field: &[u8]) -> u16 {
    if field.len() < 3 {
        return 9;
    }
    let long = payload_of(field[0]);
    if long == 0 {
        return 7;
    }
    if two_bytes(&field[1..]) != long {
        return 8;
    }
    9
}

fn replay(input: &mut Input, output: &mut Output) -> io::Result<Ending> {
    let mut pool = match sizes(input)? {
        Ok(pool) => pool,
        Err(number) => return Ok(Ending::Refused { number, offset: 0 }),
    };
    let mut step = 0u32;
    loop {
        let there = input.there(12)?;
        let field = &input.buffer[input.at..input.filled];
        let long = if there < 3 { 0 } else { payload_of(field[0]) };
        if long == 0 || two_bytes(&field[1..]) != long || there < 3 + long {
            let number = refusal(field);
            return Ok(Ending::Refused { number, offset: input.offset() });
        }
        let tag = field[0];
        let number = four_bytes(&field[3..]);
        if tag == 0x7F {
            if number != step {
                return Ok(Ending::Refused { number: 12, offset: input.offset() });
            }
            input.at += 7;
            if input.there(1)? > 0 {
                return Ok(Ending::Refused { number: 11, offset: input.offset() });
            }
            return Ok(Ending::Whole { free: pool.free_records(), closed: pool.closed() });
        }
        if step == u32::MAX || number != step + 1 {
            return Ok(Ending::Refused { number: 10, offset: input.offset() });
        }
        step = number;
        // The numbers that an event does not have may be of the next field; nothing looks at them.
        let at = |i: usize| if i < there { field[i] } else { 0 };
        let (answer, value) = pool.event(tag, at(7), at(8), at(9), at(10));
        input.at += 3 + long;
        output.line(step, answer, value)?;
    }
}

fn main() -> io::Result<()> {
    let mut input = Input { from: io::stdin().lock(), buffer: vec![0; INPUT], at: 0, filled: 0, base: 0 };
    let mut output = Output { to: io::stdout().lock(), buffer: vec![0; OUTPUT], at: 0 };
    let ending = replay(&mut input, &mut output)?;
    if output.at + LINE > OUTPUT {
        output.flush()?;
    }
    match ending {
        Ending::Whole { free, closed } => {
            output.word(b"end ");
            output.two(free as u64, closed.into());
        }
        Ending::Refused { number, offset } => {
            output.word(b"refused ");
            output.two(number.into(), offset);
        }
    }
    output.flush()
}
