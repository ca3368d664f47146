//! What a set of traces covered: how they ended, how their sizes fields say B, which sizes at the ends of words
//! they have, what their makes and the steps of phase 6 came upon, what was wrong at once with an event, what their cycles were, how they were handed
//! over, and where in a field a read ended.

use std::fmt;
use std::str;

use second::ends::{at_ends, AT_ENDS, OF_REPLAY};
use second::event::{happen, Event};
use second::pool::Pool;
use second::replay::Ending;
use second::report::{Cycles, Upon};
use second::tally::{
    cycles, left_open, makes, sizes_fields, wrongs, CYCLES, LEFT_OPEN, MAKES, SIZES_FIELDS, WRONGS,
};
use second::trace::{well_formed, Field, Kind, Reader};
use second::waiting::{reclaims, RECLAIMS};

use crate::hand::{pieces, Way, ROOM};

/// The answer numbers that an event can get in a trace.
const ANSWERS: [usize; 6] = [0, 3, 4, 5, 13, 14];

/// The numbers that a trace can be refused with.
const REFUSALS: [usize; 7] = [1, 7, 8, 9, 10, 11, 12];

/// The fields that a read can end in, each with its length. The sizes begin the trace, so that the room
/// for input never ends in them, and a piece never before their first byte.
const FIELDS: [(Kind, usize); 11] = [
    (Kind::Sizes, 8),
    (Kind::Sizes, 10),
    (Kind::Make, 6),
    (Kind::Move, 7),
    (Kind::Drop, 6),
    (Kind::Load, 8),
    (Kind::Store, 8),
    (Kind::Look, 7),
    (Kind::Post, 7),
    (Kind::Collect, 4),
    (Kind::End, 4),
];

/// The bytes of the longest field.
const LONGEST: usize = 13;

/// A trace of so many events is a long one.
const LONG: usize = 100_000;

/// How often a read ended after so many bytes of a field of each kind; 0 is before its first.
type Ends = [[u64; LONGEST]; FIELDS.len()];

#[derive(Default)]
pub struct Cover {
    whole: u64,
    refused: [u64; 15],
    answers: [u64; 15],
    sizes_fields: [u64; SIZES_FIELDS.len()],
    at_ends: [u64; OF_REPLAY],
    makes: [u64; MAKES.len()],
    reclaims: [u64; RECLAIMS.len()],
    wrongs: [u64; WRONGS.len()],
    cycles: [u64; CYCLES.len()],
    left_open: [u64; LEFT_OPEN.len()],
    most_cycles: u64,
    by_pipe: u64,
    by_file: u64,
    by_pieces: u64,
    long: u64,
    pieces: u64,
    most_events: usize,
    most_bytes: usize,
    room_ends: Ends,
    piece_ends: Ends,
}

impl Cover {
    /// A trace, how it is handed over, and how and with which lines the second program ends.
    pub fn trace(&mut self, trace: &[u8], way: Way, ending: &Ending, printed: &[u8]) {
        let mut read = trace.len();
        match ending {
            Ending::Refused(refusal) => {
                self.refused[usize::from(refusal.number)] += 1;
                read = refusal.offset;
            }
            _ => self.whole += 1,
        }
        let mut events = 0;
        for number in answers(printed) {
            events += 1;
            self.answers[number] += 1;
        }
        let is_open = self.count_upon(trace);
        add(&mut self.left_open, &left_open(ending, is_open).map(u64::from));
        self.long += u64::from(events >= LONG);
        self.most_events = self.most_events.max(events);
        self.most_bytes = self.most_bytes.max(trace.len());
        match way {
            Way::Pipe => self.by_pipe += 1,
            Way::File => {
                self.by_file += 1;
                count_room_ends(&trace[..read], &mut self.room_ends);
            }
            Way::Pieces { seed } => {
                self.by_pieces += 1;
                let pieces = pieces(trace, seed);
                self.pieces += pieces.len() as u64;
                let lengths = pieces.iter().map(|piece| piece.len());
                count_piece_ends(&trace[..read], lengths, &mut self.piece_ends);
            }
        }
    }

    /// What the events of a trace came upon, and the cycles that they closed; whether they leave one
    /// open.
    fn count_upon(&mut self, trace: &[u8]) -> bool {
        let mut reader = Reader::new(trace);
        let (mut pool, mut watched, mut closed) = (None, Cycles::default(), 0);
        while let Ok(Some(field)) = reader.next_field() {
            match (field, &mut pool) {
                (Field::Sizes { sizes, carries_b }, _) => {
                    add(&mut self.sizes_fields, &sizes_fields(sizes, carries_b).map(u64::from));
                    add(&mut self.at_ends, &at_ends(sizes).map(u64::from));
                    pool = Some(Pool::fresh(sizes));
                }
                (Field::Event { event, .. }, Some(pool)) => {
                    add(&mut self.wrongs, &wrongs(pool, event).map(u64::from));
                    if event == Event::Collect {
                        add(&mut self.reclaims, &reclaims(pool).map(u64::from));
                    }
                    let makes = matches!(event, Event::Make { .. }).then(|| makes(pool));
                    let seen = Upon::of(pool);
                    if let (0, Some(makes)) = (happen(pool, event).number, makes) {
                        add(&mut self.makes, &makes.map(u64::from));
                    }
                    if let Some(cycle) = watched.event(seen, pool) {
                        closed += 1;
                        add(&mut self.cycles, &cycles(&cycle).map(u64::from));
                    }
                }
                // The end field. No event comes before the sizes.
                _ => {}
            }
        }
        self.most_cycles = self.most_cycles.max(closed);
        watched.is_open()
    }

    /// What both covered.
    pub fn and(mut self, other: Cover) -> Cover {
        self.whole += other.whole;
        add(&mut self.refused, &other.refused);
        add(&mut self.answers, &other.answers);
        add(&mut self.sizes_fields, &other.sizes_fields);
        add(&mut self.at_ends, &other.at_ends);
        add(&mut self.makes, &other.makes);
        add(&mut self.reclaims, &other.reclaims);
        add(&mut self.wrongs, &other.wrongs);
        add(&mut self.cycles, &other.cycles);
        add(&mut self.left_open, &other.left_open);
        self.most_cycles = self.most_cycles.max(other.most_cycles);
        self.by_pipe += other.by_pipe;
        self.by_file += other.by_file;
        self.by_pieces += other.by_pieces;
        self.long += other.long;
        self.pieces += other.pieces;
        self.most_events = self.most_events.max(other.most_events);
        self.most_bytes = self.most_bytes.max(other.most_bytes);
        add(self.room_ends.as_flattened_mut(), other.room_ends.as_flattened());
        add(self.piece_ends.as_flattened_mut(), other.piece_ends.as_flattened());
        self
    }

    /// What should have come up and never did.
    pub fn faults(&self) -> Vec<String> {
        let mut faults = Vec::new();
        let mut ask = |what: String, times: u64| {
            if times == 0 {
                faults.push(format!("never covered: {what}"));
            }
        };
        ask("a whole trace".into(), self.whole);
        for number in REFUSALS {
            ask(format!("a trace refused {number}"), self.refused[number]);
        }
        for number in ANSWERS {
            ask(format!("an event answered {number}"), self.answers[number]);
        }
        let sizes_fields = SIZES_FIELDS.into_iter().zip(self.sizes_fields);
        let sizes_fields = sizes_fields.chain(AT_ENDS.into_iter().zip(self.at_ends));
        let makes = MAKES.into_iter().zip(self.makes);
        let reclaims = RECLAIMS.into_iter().zip(self.reclaims);
        let wrongs = WRONGS.into_iter().zip(self.wrongs);
        let cycles = CYCLES.into_iter().zip(self.cycles).chain(LEFT_OPEN.into_iter().zip(self.left_open));
        for (what, times) in sizes_fields.chain(makes).chain(reclaims).chain(wrongs).chain(cycles) {
            ask(what.into(), times);
        }
        let ways = [self.by_pipe, self.by_file, self.by_pieces];
        for (way, times) in ["a pipe", "a file", "pieces"].into_iter().zip(ways) {
            ask(format!("a trace by {way}"), times);
        }
        ask(format!("a trace of {LONG} events or more"), self.long);
        for (ends, what) in [(&self.room_ends, "the room"), (&self.piece_ends, "a piece")] {
            for (row, (kind, length)) in ends.iter().zip(FIELDS) {
                let bytes = match (kind, what) {
                    (Kind::Sizes, "the room") => 0..0,
                    (Kind::Sizes, _) => 1..3 + length,
                    _ => 0..3 + length,
                };
                for bytes in bytes {
                    let field = format!("a field {} of length {length}", kind.name());
                    ask(format!("{what} ends after {bytes} bytes of {field}"), row[bytes]);
                }
            }
        }
        faults
    }
}

fn add(sums: &mut [u64], others: &[u64]) {
    for (sum, other) in sums.iter_mut().zip(others) {
        *sum += other;
    }
}

/// The answer number in the line of each event.
fn answers(printed: &[u8]) -> impl Iterator<Item = usize> + '_ {
    printed.split(|byte| *byte == b'\n').filter_map(|line| {
        let mut words = str::from_utf8(line).ok()?.split(' ');
        let _step: u32 = words.next()?.parse().ok()?;
        words.next()?.parse().ok()
    })
}

/// The fields of a trace, up to the first bytes that are none: where each begins, its kind and its
/// length.
fn fields(trace: &[u8]) -> impl Iterator<Item = (usize, (Kind, usize))> + '_ {
    let mut offset = 0;
    std::iter::from_fn(move || {
        let field = well_formed(&trace[offset..])?;
        let (begin, bytes) = (offset, field.bytes().len());
        offset += bytes;
        Some((begin, (field.kind(), bytes - 3)))
    })
}

fn count(ends: &mut Ends, field: (Kind, usize), bytes: usize) {
    for (row, of) in ends.iter_mut().zip(FIELDS) {
        row[bytes] += u64::from(of == field);
    }
}

/// Where the room for input ends. A read fills it; of what it holds, an unfinished field stays and
/// is moved to its front.
fn count_room_ends(trace: &[u8], ends: &mut Ends) {
    let mut front = 0;
    for (begin, field) in fields(trace) {
        let end = front + ROOM;
        if end < begin + 3 + field.1 {
            count(ends, field, end - begin);
            front = begin;
        }
    }
}

/// Where the pieces end.
fn count_piece_ends(trace: &[u8], lengths: impl Iterator<Item = usize>, ends: &mut Ends) {
    let mut piece_ends = lengths.scan(0, |offset, length| {
        *offset += length;
        Some(*offset)
    });
    let mut next = piece_ends.next();
    for (begin, field) in fields(trace) {
        let after = begin + 3 + field.1;
        while let Some(end) = next.filter(|end| *end < after) {
            count(ends, field, end - begin);
            next = piece_ends.next();
        }
    }
}

impl fmt::Display for Cover {
    fn fmt(&self, out: &mut fmt::Formatter) -> fmt::Result {
        let refused: u64 = self.refused.iter().sum();
        writeln!(out, "{} traces: {} whole, {refused} refused", self.whole + refused, self.whole)?;
        let numbered = |numbers: &[usize], times: &[u64; 15]| -> String {
            numbers.iter().map(|number| format!("  {number}: {}", times[*number])).collect()
        };
        writeln!(out, "how often each answer number was given:{}", numbered(&ANSWERS, &self.answers))?;
        writeln!(out, "how often a trace was refused with it:{}", numbered(&REFUSALS, &self.refused))?;
        writeln!(out, "how often a trace began with this:")?;
        let at_ends = self.at_ends.iter().zip(AT_ENDS);
        for (times, what) in self.sizes_fields.iter().zip(SIZES_FIELDS).chain(at_ends) {
            writeln!(out, "{times:>10}  {what}")?;
        }
        writeln!(out, "how often a make came upon this:")?;
        for (times, what) in self.makes.iter().zip(MAKES) {
            writeln!(out, "{times:>10}  {what}")?;
        }
        writeln!(out, "how often a step of phase 6 came upon this:")?;
        for (times, what) in self.reclaims.iter().zip(RECLAIMS) {
            writeln!(out, "{times:>10}  {what}")?;
        }
        writeln!(out, "how often this was wrong at once with an event:")?;
        for (times, what) in self.wrongs.iter().zip(WRONGS) {
            writeln!(out, "{times:>10}  {what}")?;
        }
        writeln!(
            out,
            "how often a cycle or an ending was this, the most cycles being {}:",
            self.most_cycles
        )?;
        let left_open = self.left_open.iter().zip(LEFT_OPEN);
        for (times, what) in self.cycles.iter().zip(CYCLES).chain(left_open) {
            writeln!(out, "{times:>10}  {what}")?;
        }
        writeln!(
            out,
            "handed over: {} by a pipe, {} by a file, {} in {} pieces",
            self.by_pipe, self.by_file, self.by_pieces, self.pieces
        )?;
        writeln!(
            out,
            "{} with {LONG} events or more; the longest has {} events, the largest {} bytes",
            self.long, self.most_events, self.most_bytes
        )?;
        writeln!(out, "how often the room for input ended after so many bytes of a field:")?;
        table(out, &self.room_ends)?;
        writeln!(out, "how often a piece did:")?;
        table(out, &self.piece_ends)
    }
}

fn table(out: &mut fmt::Formatter, ends: &Ends) -> fmt::Result {
    writeln!(out, "{:>8} {}", "", (0..LONGEST).map(|bytes| format!("{bytes:>8}")).collect::<String>())?;
    for (row, (kind, length)) in ends.iter().zip(FIELDS) {
        let name = match kind {
            Kind::Sizes => format!("sizes {length}"),
            _ => kind.name().into(),
        };
        let times = &row[..3 + length];
        writeln!(out, "{name:>8} {}", times.iter().map(|times| format!("{times:>8}")).collect::<String>())?;
    }
    Ok(())
}

#[cfg(test)]
mod tests {
    use second::maker::make_with_field_at;

    use super::*;

    fn made(ends: &Ends) -> Vec<(&'static str, usize, u64)> {
        let rows = ends.iter().zip(FIELDS);
        let all = rows.flat_map(|(row, (kind, _))| {
            (0..).zip(row).map(move |(bytes, times)| (kind.name(), bytes, *times))
        });
        all.filter(|(_, _, times)| *times > 0).collect()
    }

    #[test]
    fn makes_are_told_apart() {
        let cycle = "times 6 collect";
        let trace = [
            "sizes 2 1 1 2",
            "make 0 0", // 1
            "drop 0 0",
            cycle,      // frees 1
            "make 0 0", // 2: it and the last made are free
            "drop 0 0",
            cycle,      // frees 2
            "make 0 0", // 1: it, below the last made, and that are free
            "make 0 1", // 2
            "make 0 1", // none is free
            "drop 0 1",
            cycle,      // frees 2
            "make 0 1", // 2, the last made, alone is free
            "end",
        ];
        let trace = trace::text::write(&trace.join("\n")).unwrap();
        let mut cover = Cover::default();
        cover.count_upon(&trace);
        assert_eq!(cover.makes, [0, 1, 1, 1, 1]);
    }

    #[test]
    fn what_is_wrong_at_once_is_told_apart() {
        let trace = [
            "sizes 1 1 1 2 1",
            "move 1 0 2",    // a worker and a register
            "load 1 0 0 1",  // a worker and a link
            "store 0 2 1 0", // a register and a link
            "load 0 0 2 1",  // the same
            "store 1 2 1 0", // all three
            "load 0 2 1 0",  // a register, and the other one holds none
            "load 0 0 2 0",  // a register, which is the one gone through
            "store 0 1 1 0", // a link, and the register holds none
            "drop 0 2",      // a register alone
            "make 0 0",
            "store 0 0 1 1", // a link alone
            "make 1 0",      // a worker, and no record is free
            "make 0 2",      // a register, and no record is free
            "make 0 1",      // no record is free
            "load 0 0 1 0",  // the register holds none
            "look 1 0 1",    // a worker and a board entry
            "post 0 1 2",    // a register and a board entry
            "look 0 2 1",    // the same
            "post 1 1 2",    // all three
            "look 1 2 0",    // a worker and a register
            "look 0 0 1",    // a board entry alone
            "end",
        ];
        let mut cover = Cover::default();
        cover.count_upon(&trace::text::write(&trace.join("\n")).unwrap());
        assert_eq!(cover.wrongs, [2, 1, 2, 1, 1, 2, 1, 1, 1, 1, 1]);
    }

    #[test]
    fn the_room_ends_where_a_field_was_put() {
        for within in 0..10 {
            let mut ends = Ends::default();
            count_room_ends(&make_with_field_at(1, Kind::Move, ROOM - within), &mut ends);
            assert_eq!(made(&ends), [("move", within, 1)]);
        }
    }

    #[test]
    fn pieces_end_within_and_between_fields() {
        let trace = trace::text::write("sizes 1 1 1 1\nmake 0 0\ncollect\nend").unwrap();
        let mut ends = Ends::default();
        count_piece_ends(&trace, [4, 7, 3, 6, 20].into_iter(), &mut ends);
        assert_eq!(made(&ends), [("sizes", 4, 1), ("make", 0, 1), ("make", 3, 1), ("collect", 0, 1)]);
    }

    #[test]
    fn the_sizes_of_both_lengths_are_told_apart() {
        let mut cover = Cover::default();
        for sizes in ["sizes 1 1 1 1", "sizes 1 1 1 1 0", "sizes 1 1 1 1 2", "sizes 1 1 1 1 0"] {
            let trace = trace::text::write(&format!("{sizes}\nend")).unwrap();
            cover.count_upon(&trace);
            count_piece_ends(&trace, [1, 1, 100].into_iter(), &mut cover.piece_ends);
        }
        assert_eq!(cover.sizes_fields, [1, 2, 1]);
        assert_eq!((&cover.piece_ends[0][..3], &cover.piece_ends[1][..3]), (&[0, 1, 1][..], &[0, 3, 3][..]));
    }
}
