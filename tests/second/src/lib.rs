//! Document 01 a second time, with the requests of document 02 that have landed, in maps, sets and
//! vectors: one function for one sentence, written from the documents and from nothing else, so that
//! the proved program can be compared with it.
//!
//! The rules
//! - `pool`       what a pool consists of, and a fresh one
//! - `event`      the events, their answers, and the order of an event's refusals
//! - `worker`     make, move, drop, load, store, look, post
//! - `collector`  the collector's steps
//!
//! The program
//! - `trace`      the fields of a trace, and the order of a field's refusals
//! - `replay`     a whole trace: what is printed
//! - `report`     a line for each closed cycle: request 7 of document 02
//! - `row`        a trace as a row that the proved rules compute
//! - `join`       parts of a trace, joined: request 3 of document 02
//!
//! The checks
//! - `sound`      a sound pool, clause by clause
//! - `reach`      what is reached, lost, and left to closed loops
//! - `check`      the promises, held to after every event
//! - `tally`      what a set of traces reached
//! - `board`      what is counted there of the board
//! - `waiting`    what is counted there of records that wait
//!
//! The made traces
//! - `random`     a seeded stream of numbers
//! - `habit`      what a worker sets out to do next
//! - `leave`      how a worker leaves a record waiting, with a chain behind it
//! - `maker`      a whole trace from a seed
//! - `damage`     the ways in which a trace is damaged
//! - `ends`       sizes at the ends of words of 64 marks
//! - `many`       many seeds, made and checked in one process
//!
//! Beside the program `second` there is `bin/night`: how many records a night of long chains frees.

#![forbid(unsafe_code)]

pub mod board;
pub mod check;
pub mod collector;
pub mod damage;
pub mod ends;
pub mod event;
pub mod habit;
pub mod join;
pub mod leave;
pub mod maker;
pub mod many;
pub mod pool;
pub mod random;
pub mod reach;
pub mod replay;
pub mod report;
pub mod row;
pub mod sound;
pub mod tally;
pub mod trace;
pub mod waiting;
pub mod worker;
