//! A pool of equal records that several workers hold and link, and a collector that gives back what
//! nobody can reach, one small step at a time, while the workers go on. The pool is written and
//! proved in Rattle; this crate is a safe type over the static library that comes of it.
//!
//! - [`Pool`]      a pool that owns its tables: the one to use
//! - [`Sizes`]     how many records, links, workers, registers and board entries it has
//! - [`Record`]    a record's number; none is `None`
//! - [`Event`]     an event as a value, for those who read events from somewhere
//! - [`Refusal`]   why a call refuses, with the documents' number and its words
//! - [`Collector`] the collector's own record: its phase, its position, how many cycles have closed
//! - [`Tables`], [`Lent`]  the tables of a pool in the open, and the checked calls on them;
//!   [`mark_at`] for one mark
//! - [`replay()`]  a whole trace from its bytes, on tables of its own; [`Field`] for those who write one
//! - [`report()`]  the numbers of each of its cycles that closed: what it took, freed and left counted
//! - [`join()`]    the parts of a trace, one for each worker and one for the collector, joined to it
//!
//! ```
//! use yuyarisun::{Pool, Sizes};
//!
//! // 8 records with 2 links each, one worker with 2 registers, no board
//! let mut pool = Pool::new(Sizes { n: 8, k: 2, w: 1, r: 2, b: 0 })?;
//! let first = pool.make(0, 0)?;
//! let second = pool.make(0, 1)?;
//! pool.store(0, 0, 0, 1)?; // link 0 of the first leads to the second
//! pool.drop_register(0, 1)?;
//! assert_eq!(pool.load(0, 1, 0, 0)?, Some(second));
//!
//! pool.drop_register(0, 0)?;
//! pool.drop_register(0, 1)?;
//! let mut freed = Vec::new();
//! while pool.collector().closed == 0 {
//!     freed.extend(pool.collect());
//! }
//! assert_eq!(freed, [first, second]);
//! assert_eq!(pool.free_records(), 8);
//! # Ok::<(), yuyarisun::Refusal>(())
//! ```

// The floors of the crate, from the top down: a module uses modules of lower floors alone, and raw alone has unsafe code. tests/floors.rs holds them to it.
//     replay, report     a trace replayed, and its cycles reported, on tables of its own
//     own                these tables, and how a trace ends on them
//     pool               a pool that owns its tables
//     trace              what is answered to events and to traces, and the checked calls
//     lent               tables that are in the open
//     join               parts of a trace, joined to it
//     raw                the library on slices and numbers, and every `unsafe`
//     event              events, records and fields as values
//     refusal, sizes     why a call refuses; sizes, tables and the collector's record

#![deny(missing_docs)]
#![deny(unsafe_code)]
#![deny(unsafe_op_in_unsafe_fn)]

mod event;
mod join;
mod lent;
mod own;
mod pool;
mod raw;
mod refusal;
mod replay;
mod report;
mod sizes;
mod trace;

pub use event::{Event, Field, Record};
pub use join::{join, join_into, Unjoined, Within};
pub use lent::Lent;
pub use pool::Pool;
pub use refusal::Refusal;
pub use replay::{replay, Replay};
pub use report::{report, Report};
pub use sizes::{mark_at, Collector, Sizes, Tables};
pub use trace::{answers_in, answers_length, cycles_in, cycles_length, Answer, Cycle, Reported, Stop, Whole};

/// The examples of the page for newcomers are tried with those of the crate.
#[cfg(doctest)]
#[doc = include_str!("../../docs/LIBRARY.md")]
struct Page;
