//! What the proved code costs, beside flat-array Rust for the same work. `bench/run` builds and
//! runs all of it.
//!
//! Written for speed, to be measured against
//! - `flat`       a pool in flat arrays, its events and collector steps
//! - `check`      "A sound pool" on lent tables, and reading these tables once
//! - `bin/flat`   the replay program over `flat`
//! - `parts`      a plain merge of the parts of a trace
//!
//! What is measured
//! - the crate `yuyarisun`, over the static library
//! - `situation`  sound pools of any size, in which a step is at its longest
//! - `made`       seeded traces, heavy in worker events or in collector steps
//!
//! How
//! - `child`      a program run on a trace: its processor time and its peak of memory
//! - `counted`    instructions of single calls, by callgrind
//! - `clock`      the best of many turns, taken in turns
//! - `table`      the rows that are printed
//! - `bin/single` the calls that callgrind counts
//! - `bin/measure` everything, and the table

pub mod check;
pub mod child;
pub mod clock;
pub mod counted;
pub mod flat;
pub mod made;
pub mod parts;
pub mod random;
pub mod situation;
pub mod table;
