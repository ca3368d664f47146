//! The static library on slices and numbers, and all unsafe code of this crate.
//!
//! - `event`, `fresh`, `is_sound`, `free_records`, `events`, `trace`, `report`  the calls that take any
//!   tables, each answered in numbers
//! - `join`  the call that takes any parts of a trace, answered in numbers
//! - `Sound`  tables that are known to be a sound pool's, and the event that checks nothing
//!
//! What a caller of the library owes. A table is lent as a pointer and how many words or numbers it
//! points to, and no two of the things lent may overlap. That is all that the public functions ask for:
//! they are proved to take any sizes, any tables, any event and any bytes. Here the tables are the
//! `Vec`s of one `Tables`, each lent with its own length, which are alive, aligned and apart; so are
//! the collector's record and the slices of bytes and of numbers, which are behind other references.
//! An exported function keeps no pointer and does not unwind.

#![allow(unsafe_code)]

use crate::event::Event;
use crate::sizes::{Collector, Sizes, Tables};

/// Declares functions that are lent the tables of marks by way of `$marks` and the others by way of
/// `$table`; what comes first stands in the brackets, and what each takes besides behind the dots.
macro_rules! lent_tables {
    ($marks:ty, $table:ty: $(fn $name:ident([$($first:ident: $one:ty),*], .. $(, $more:ident: $type:ty)*) -> $answer:ty;)*) => {
        extern "C" {
            $(fn $name(
                $($first: $one,)*
                used: $marks, used_length: usize, counts: $table, counts_length: usize,
                held: $marks, held_length: usize, candidates: $marks, candidates_length: usize,
                makers: $table, makers_length: usize, values: $table, values_length: usize,
                changed: $marks, changed_length: usize, registers: $table, registers_length: usize,
                snoops: $table, snoops_length: usize, logs: $table, logs_length: usize,
                history: $table, history_length: usize, lengths: $table, lengths_length: usize
                $(, $more: $type)*
            ) -> $answer;)*
        }
    };
}

/// The same of functions that are lent a pool to write: its sizes first, the collector's record
/// behind the tables.
macro_rules! lent_a_pool {
    ($(fn $name:ident(.. $(, $more:ident: $type:ty)*) -> u16;)*) => {
        lent_tables! { *mut u64, *mut u16: $(
            fn $name(
                [n: u16, k: u16, w: u16, r: u16, b: u16], ..,
                phase: *mut u16, position: *mut u16, closed: *mut u16 $(, $more: $type)*
            ) -> u16;
        )* }
    };
}

lent_a_pool! {
    fn yuyarisun_make(.., value: *mut u16, worker: u8, into: u8) -> u16;
    fn yuyarisun_move(.., value: *mut u16, worker: u8, into: u8, from: u8) -> u16;
    fn yuyarisun_drop(.., value: *mut u16, worker: u8, dropped: u8) -> u16;
    fn yuyarisun_load(.., value: *mut u16, worker: u8, into: u8, through: u8, link: u8) -> u16;
    fn yuyarisun_store(.., value: *mut u16, worker: u8, through: u8, link: u8, from: u8) -> u16;
    fn yuyarisun_look(.., value: *mut u16, worker: u8, into: u8, entry: u8) -> u16;
    fn yuyarisun_post(.., value: *mut u16, worker: u8, entry: u8, from: u8) -> u16;
    fn yuyarisun_collect(.., value: *mut u16) -> u16;
    fn yuyarisun_fresh(..) -> u16;
    fn yuyarisun_events(
        .., bytes: *const u8, bytes_length: usize, step: *mut u32, answers: *mut u16, answers_length: usize,
        events: *mut usize, place: *mut usize
    ) -> u16;
    // Inner, and in no header: it requires a sound pool and checks nothing.
    fn yuyarisun_inner_event(.., value: *mut u16, tag: u8, first: u8, second: u8, third: u8, fourth: u8) -> u16;
}

lent_tables! { *mut u64, *mut u16:
    fn yuyarisun_trace(
        [], .., phase: *mut u16, position: *mut u16, closed: *mut u16,
        bytes: *const u8, bytes_length: usize, answers: *mut u16, answers_length: usize,
        events: *mut usize, free: *mut u16, place: *mut usize
    ) -> u16;
    fn yuyarisun_report(
        [], .., phase: *mut u16, position: *mut u16, closed: *mut u16,
        bytes: *const u8, bytes_length: usize, numbers: *mut i64, numbers_length: usize,
        events: *mut usize, cycles: *mut usize, free: *mut u16, place: *mut usize
    ) -> u16;
}

lent_tables! { *const u64, *const u16:
    fn yuyarisun_sound(
        [n: u16, k: u16, w: u16, r: u16, b: u16], .., phase: u16, position: u16, closed: u16
    ) -> bool;
}

extern "C" {
    fn yuyarisun_free_records(n: u16, used: *const u64, used_length: usize) -> usize;
    fn yuyarisun_join(
        parts: *const u8,
        parts_length: usize,
        lengths: *const u64,
        lengths_length: usize,
        out: *mut u8,
        out_length: usize,
        length: *mut usize,
        place: *mut usize,
    ) -> u16;
}

/// Calls a function with what comes first, with the tables by way of `$pointer`, and with what it
/// takes besides.
macro_rules! lend_tables {
    ($name:ident, [$($first:expr),*], $tables:expr, $pointer:ident $(, $more:expr)*) => {
        $name(
            $($first,)*
            $tables.used.$pointer(), $tables.used.len(),
            $tables.counts.$pointer(), $tables.counts.len(),
            $tables.held.$pointer(), $tables.held.len(),
            $tables.candidates.$pointer(), $tables.candidates.len(),
            $tables.makers.$pointer(), $tables.makers.len(),
            $tables.values.$pointer(), $tables.values.len(),
            $tables.changed.$pointer(), $tables.changed.len(),
            $tables.registers.$pointer(), $tables.registers.len(),
            $tables.snoops.$pointer(), $tables.snoops.len(),
            $tables.logs.$pointer(), $tables.logs.len(),
            $tables.history.$pointer(), $tables.history.len(),
            $tables.lengths.$pointer(), $tables.lengths.len()
            $(, $more)*
        )
    };
}

/// The same of a function that writes: the sizes first, and the collector's record behind the tables.
macro_rules! lend_a_pool {
    ($name:ident, $sizes:expr, $tables:expr, $collector:expr $(, $more:expr)*) => {
        lend_tables!(
            $name, [$sizes.n, $sizes.k, $sizes.w, $sizes.r, $sizes.b], $tables, as_mut_ptr,
            &mut $collector.phase, &mut $collector.position, &mut $collector.closed
            $(, $more)*
        )
    };
}

/// One event on any tables: the call asks for sizes and lengths, then for a sound pool, and only
/// then looks at the event. Its number and its value.
pub(crate) fn event(
    sizes: Sizes,
    tables: &mut Tables,
    collector: &mut Collector,
    event: Event,
) -> (u16, u16) {
    let mut value = 0;
    macro_rules! call {
        ($name:ident $(, $number:expr)*) => {
            // SAFETY: a public function, lent tables that are apart, behind a `&mut`, and the
            // collector's record behind another; `value` is a local.
            unsafe { lend_a_pool!($name, sizes, tables, collector, &mut value $(, $number)*) }
        };
    }
    let number = match event {
        Event::Make { w, r } => call!(yuyarisun_make, w, r),
        Event::Move { w, r, q } => call!(yuyarisun_move, w, r, q),
        Event::Drop { w, r } => call!(yuyarisun_drop, w, r),
        Event::Load { w, r, q, f } => call!(yuyarisun_load, w, r, q, f),
        Event::Store { w, q, f, r } => call!(yuyarisun_store, w, q, f, r),
        Event::Look { w, r, e } => call!(yuyarisun_look, w, r, e),
        Event::Post { w, e, r } => call!(yuyarisun_post, w, e, r),
        Event::Collect => call!(yuyarisun_collect),
    };
    (number, value)
}

/// Makes any tables a fresh pool, if the sizes are in range and the lengths exact.
pub(crate) fn fresh(sizes: Sizes, tables: &mut Tables, collector: &mut Collector) -> u16 {
    // SAFETY: a public function, lent as in `event`.
    unsafe { lend_a_pool!(yuyarisun_fresh, sizes, tables, collector) }
}

/// Whether sizes are in range, every length is exact and the pool is sound.
pub(crate) fn is_sound(sizes: Sizes, tables: &Tables, collector: Collector) -> bool {
    let (Sizes { n, k, w, r, b }, Collector { phase, position, closed }) = (sizes, collector);
    // SAFETY: a public function, lent tables to read alone, behind a `&`.
    unsafe { lend_tables!(yuyarisun_sound, [n, k, w, r, b], tables, as_ptr, phase, position, closed) }
}

/// How many events, or a trace, ended.
pub(crate) struct Ended {
    /// 0 if every byte was taken, else why a field was refused.
    pub number: u16,
    /// How many events were done.
    pub events: usize,
    /// How many records are free at the end of a whole trace, else 0.
    pub free: u16,
    /// Where the field begins that was refused, else 0.
    pub place: usize,
}

/// Many events at once, on tables that are looked through once.
pub(crate) fn events(
    sizes: Sizes,
    tables: &mut Tables,
    collector: &mut Collector,
    bytes: &[u8],
    step: &mut u32,
    answers: &mut [u16],
) -> Ended {
    let (mut events, mut place) = (0, 0);
    // SAFETY: a public function, lent as in `event`; the bytes are behind a `&`, and the answers and
    // the step number behind two `&mut` of their own, each slice with its own length; the others are
    // locals.
    let number = unsafe {
        lend_a_pool!(
            yuyarisun_events,
            sizes,
            tables,
            collector,
            bytes.as_ptr(),
            bytes.len(),
            step,
            answers.as_mut_ptr(),
            answers.len(),
            &mut events,
            &mut place
        )
    };
    Ended { number, events, free: 0, place }
}

/// A whole trace on any tables.
pub(crate) fn trace(
    tables: &mut Tables,
    collector: &mut Collector,
    bytes: &[u8],
    answers: &mut [u16],
) -> Ended {
    let (mut events, mut free, mut place) = (0, 0, 0);
    // SAFETY: as in `events`.
    let number = unsafe {
        lend_tables!(
            yuyarisun_trace,
            [],
            tables,
            as_mut_ptr,
            &mut collector.phase,
            &mut collector.position,
            &mut collector.closed,
            bytes.as_ptr(),
            bytes.len(),
            answers.as_mut_ptr(),
            answers.len(),
            &mut events,
            &mut free,
            &mut place
        )
    };
    Ended { number, events, free, place }
}

/// A report of a whole trace, on any tables: how it ended, and how many cycles closed.
pub(crate) fn report(
    tables: &mut Tables,
    collector: &mut Collector,
    bytes: &[u8],
    numbers: &mut [i64],
) -> (Ended, usize) {
    let (mut events, mut cycles, mut free, mut place) = (0, 0, 0, 0);
    // SAFETY: as in `events`, with the cycles' numbers in the place of the answers.
    let number = unsafe {
        lend_tables!(
            yuyarisun_report,
            [],
            tables,
            as_mut_ptr,
            &mut collector.phase,
            &mut collector.position,
            &mut collector.closed,
            bytes.as_ptr(),
            bytes.len(),
            numbers.as_mut_ptr(),
            numbers.len(),
            &mut events,
            &mut cycles,
            &mut free,
            &mut place
        )
    };
    (Ended { number, events, free, place }, cycles)
}

/// N less the marks that are on, 0 where there are more of them.
pub(crate) fn free_records(n: u16, used: &[u64]) -> usize {
    // SAFETY: a public function, lent one slice to read alone.
    unsafe { yuyarisun_free_records(n, used.as_ptr(), used.len()) }
}

/// Parts of a trace, joined.
pub(crate) struct Joined {
    /// 0 if the joined trace was written, else why it was not.
    pub number: u16,
    /// How long it is, else 0.
    pub length: usize,
    /// Where the field begins that was refused, else 0.
    pub place: usize,
}

/// Joins parts that lie end to end and have these lengths.
pub(crate) fn join(parts: &[u8], lengths: &[u64], out: &mut [u8]) -> Joined {
    let (mut length, mut place) = (0, 0);
    // SAFETY: a public function, lent two slices to read alone, behind `&`s, and one to write behind a
    // `&mut`, each with its own length; the others are locals.
    let number = unsafe {
        yuyarisun_join(
            parts.as_ptr(),
            parts.len(),
            lengths.as_ptr(),
            lengths.len(),
            out.as_mut_ptr(),
            out.len(),
            &mut length,
            &mut place,
        )
    };
    Joined { number, length, place }
}

/// Tables that are known to be a sound pool's: sizes in range, exact lengths, and every clause of
/// "A sound pool". Outside this module nobody makes one but by `fresh` and `checked`, and nobody
/// changes one but by `event`.
#[derive(Clone, Debug, PartialEq, Eq)]
pub(crate) struct Sound {
    sizes: Sizes,
    tables: Tables,
    collector: Collector,
}

impl Sound {
    /// A fresh pool, which is sound: `fresh-is-sound` of crates/soundness/proofs/Kept.antt. None
    /// where a size is out of its range.
    pub fn fresh(sizes: Sizes) -> Option<Sound> {
        if !sizes.in_range() {
            return None;
        }
        let (mut tables, mut collector) = (Tables::zeros(sizes), Collector::default());
        let number = fresh(sizes, &mut tables, &mut collector);
        (number == 0).then_some(Sound { sizes, tables, collector })
    }

    /// Tables that the library's check finds sound. It finds so exactly those that are:
    /// crates/clauses/proofs/Exactly.antt.
    pub fn checked(sizes: Sizes, tables: Tables, collector: Collector) -> Option<Sound> {
        is_sound(sizes, &tables, collector).then_some(Sound { sizes, tables, collector })
    }

    /// One event, without asking again whether the pool is sound. Its number and its value.
    pub fn event(&mut self, event: Event) -> (u16, u16) {
        let (tag, [a, b, c, d]) = event.tag_and_numbers();
        let Sound { sizes, tables, collector } = self;
        let mut value = 0;
        // SAFETY: the tables are lent as in `event` above. Beyond that this function requires a
        // sound pool in tables of exact lengths (`Known` of crates/tables/specs/Known.antt), and
        // without one it may do anything. This type keeps it: `fresh` and `checked` begin with one,
        // no table is handed out to be written, and every event on a sound pool leaves a sound
        // pool, `event-keeps-sound` of crates/soundness/proofs/Kept.antt.
        let number = unsafe {
            lend_a_pool!(yuyarisun_inner_event, sizes, tables, collector, &mut value, tag, a, b, c, d)
        };
        (number, value)
    }

    /// To look at.
    pub fn sizes(&self) -> Sizes {
        self.sizes
    }

    /// To look at.
    pub fn collector(&self) -> Collector {
        self.collector
    }

    /// To read.
    pub fn tables(&self) -> &Tables {
        &self.tables
    }

    /// To take apart.
    pub fn into_tables(self) -> (Tables, Collector) {
        (self.tables, self.collector)
    }
}
