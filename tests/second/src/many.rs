//! Many seeds in one process: each trace is made, replayed and checked on the way.

use std::io;

use crate::check::Check;
use crate::maker::{make, Made};
use crate::replay::{replay, Ending};
use crate::tally::Tally;

/// What a made trace failed at.
pub struct Failure {
    pub seed: u64,
    pub trace: Vec<u8>,
    pub what: String,
}

/// Makes and checks the traces of so many seeds from the first on; stops at the first failure.
pub fn many(first: u64, how_many: u64, tally: &mut Tally) -> Result<(), Failure> {
    for seed in (0..how_many).map(|further| first.wrapping_add(further)) {
        let made = make(seed);
        if let Err(what) = hold(&made, tally) {
            return Err(Failure { seed, trace: made.trace, what });
        }
    }
    Ok(())
}

fn hold(made: &Made, tally: &mut Tally) -> Result<(), String> {
    let ending = replay(&made.trace, &mut io::sink(), Some(&mut Check::new(tally)));
    let ending = ending.map_err(|error| error.to_string())?;
    tally.ending(&ending, made.damage);
    if let Ending::Broken { step, sentence } = ending {
        return Err(format!("step {step}: {sentence}"));
    }
    Ok(())
}
