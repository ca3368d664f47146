//! Traces for people: the text form of a trace, and the program `trace` around it.
//!
//! - `text`       bytes to text, and text to bytes
//! - `split`      a whole trace, dealt out into parts
//! - `command`    what the program is called with, and what it says of itself
//!
//! The byte form is `second::trace`, and what a seed makes is `second::maker`.

#![forbid(unsafe_code)]

pub mod command;
pub mod split;
pub mod text;
