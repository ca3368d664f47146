//! Tables that are in the open, made fresh and looked through.

use crate::raw;
use crate::refusal::Refusal;
use crate::sizes::{Collector, Sizes, Tables};

/// Tables from anywhere, that anybody may write: each call looks through them first, and refuses
/// where no sound pool lies in them.
///
/// It is for tables that somebody else works on too, and for looking at what a call makes of them.
/// Whoever just wants a pool uses [`Pool`](crate::Pool), and
/// [`Pool::from_tables`](crate::Pool::from_tables) for one that was put away.
#[derive(Clone, Debug, PartialEq, Eq)]
pub struct Lent {
    /// The sizes, in range or not.
    pub sizes: Sizes,
    /// The tables, of any lengths and with anything in them.
    pub tables: Tables,
    /// The collector's own record.
    pub collector: Collector,
}

impl Lent {
    /// Makes the tables a fresh pool, whatever they held.
    ///
    /// Refuses by [`Refusal::WrongSize`] where a size is out of its range or a table has another
    /// length.
    pub fn fresh(&mut self) -> Result<(), Refusal> {
        Refusal::answered(raw::fresh(self.sizes, &mut self.tables, &mut self.collector))
    }

    /// Whether the sizes are in range, every length is exact and the pool is sound.
    pub fn is_sound(&self) -> bool {
        raw::is_sound(self.sizes, &self.tables, self.collector)
    }

    /// How many records are free: N less the used marks that are on, whatever words these are, and 0
    /// where there are more of them. Bits behind the last record's count as any others; in a sound pool
    /// they are off.
    pub fn free_records(&self) -> usize {
        raw::free_records(self.sizes.n, &self.tables.used)
    }
}
