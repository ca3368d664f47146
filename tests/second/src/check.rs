//! Documents 01 and 02 and the tender held to their word, after every event of a run from a fresh pool.
//!
//! A check looks at the pool before and after an event and at the answer, never at how the rules
//! came from one to the other.

use std::collections::{BTreeMap, BTreeSet};

use crate::event::{Answer, Event, NO_SUCH_REGISTER, NO_SUCH_WORKER};
use crate::pool::{Link, Pool, Record};
use crate::reach::{left_to_loops, lost, reached, two_workers_share};
use crate::report::{sum_of_counts, Cycles, Upon};
use crate::sound::{sound, tallies_are_the_counts};
use crate::tally::Tally;
use crate::waiting::waiting;

/// A cycle "opens with the step out of phase 0 and closes with the step back to it".
struct Cycle {
    collector_steps: usize,
    /// Lost at the opening, loops aside.
    lost: BTreeSet<Record>,
    freed: BTreeSet<Record>,
    /// How many links its steps have emptied.
    emptied: usize,
}

/// What has to be remembered of a run.
pub struct Check<'a> {
    tally: &'a mut Tally,
    /// The value last seen of each link; none is missing.
    last_seen: BTreeMap<Link, Record>,
    /// The makes answered with 0 less the records freed.
    made_and_not_freed: BTreeSet<Record>,
    /// What the last make answered with 0 has made; 0 before the first.
    last_made: u16,
    /// The records that waited when the last cycle closed.
    waited: BTreeSet<Record>,
    cycle: Option<Cycle>,
    /// The cycles as the report has them, and the nets of those that have closed, together.
    reported: Cycles,
    nets: i64,
}

/// One event, seen from outside.
struct Moment<'a> {
    before: &'a Pool,
    event: Event,
    answer: Answer,
    after: &'a Pool,
}

impl Moment<'_> {
    /// The record that a collector step freed.
    fn freed(&self) -> Option<Record> {
        match self.event {
            Event::Collect => self.answer.value,
            _ => None,
        }
    }

    /// The links that a collector step emptied.
    fn emptied(&self) -> impl Iterator<Item = Link> + '_ {
        let held = self.before.values.keys().copied().filter(|_| self.event == Event::Collect);
        held.filter(|link| self.after.value(*link).is_none())
    }

    fn opens(&self) -> bool {
        self.before.phase == 0 && self.after.phase != 0
    }

    fn closes(&self) -> bool {
        self.before.phase != 0 && self.after.phase == 0
    }
}

fn hold(holds: bool, sentence: impl FnOnce() -> String) -> Result<(), String> {
    if holds {
        Ok(())
    } else {
        Err(sentence())
    }
}

impl<'a> Check<'a> {
    pub fn new(tally: &'a mut Tally) -> Check<'a> {
        Check {
            tally,
            last_seen: BTreeMap::new(),
            made_and_not_freed: BTreeSet::new(),
            last_made: 0,
            waited: BTreeSet::new(),
            cycle: None,
            reported: Cycles::default(),
            nets: 0,
        }
    }

    /// A fresh pool is sound.
    pub fn fresh(&mut self, pool: &Pool, carries_b: bool) -> Result<(), String> {
        self.tally.begin(pool.sizes, carries_b);
        sound(pool)
    }

    /// Every promise after one event.
    pub fn event(&mut self, before: &Pool, event: Event, answer: Answer, after: &Pool) -> Result<(), String> {
        let moment = Moment { before, event, answer, after };
        self.tally.event(before, event, answer, after);
        refused_changes_nothing(&moment)?;
        freed_is_out_of_reach(&moment)?;
        emptied_is_out_of_reach(&moment)?;
        sound(after)?;
        self.made_is_the_next_free(&moment)?;
        self.used_are_made_less_freed(&moment)?;
        self.remember_last_seen(&moment);
        self.opening(&moment);
        self.remember_freed(&moment);
        self.cycle_is_reported(&moment)?;
        self.cycle_is_short(&moment)?;
        self.waited_is_freed(&moment)?;
        self.lost_is_freed(&moment)?;
        self.counts_at_the_close(&moment)
    }

    /// "A make now takes the first free record above the last one made, else the lowest" (document 02,
    /// request 1): of the records from the last made on, round to it again, the first that is free. "5:
    /// make, and no record is free."
    fn made_is_the_next_free(&mut self, moment: &Moment) -> Result<(), String> {
        let Answer { number, value } = moment.answer;
        let names_what_is_not_there = [NO_SUCH_WORKER, NO_SUCH_REGISTER].contains(&number);
        if !matches!(moment.event, Event::Make { .. }) || names_what_is_not_there {
            return Ok(());
        }
        let n = moment.before.sizes.n;
        let mut round = (0..n).map(|further| Record((self.last_made + further) % n + 1));
        let next = round.find(|record| moment.before.is_free(record));
        self.last_made = next.map_or(self.last_made, |record| record.0);
        hold(value == next && (number == 0) == next.is_some(), || {
            format!("a make is answered {number} with {value:?}, and the next free record is {next:?}")
        })
    }

    /// "From a fresh pool the used records are the makes answered with 0 less the records freed."
    fn used_are_made_less_freed(&mut self, moment: &Moment) -> Result<(), String> {
        let mut one_more_or_less = true;
        if let (Event::Make { .. }, 0, Some(record)) =
            (moment.event, moment.answer.number, moment.answer.value)
        {
            one_more_or_less = self.made_and_not_freed.insert(record);
        }
        if let Some(record) = moment.freed() {
            one_more_or_less = self.made_and_not_freed.remove(&record);
        }
        hold(one_more_or_less && moment.after.used == self.made_and_not_freed, || {
            "the used records are not the makes answered with 0 less the records freed".into()
        })
    }

    /// The value last seen: none at first; at the clearing of a changed mark the link's value
    /// then; at an emptying, in freeing or of a waiting record, none.
    fn remember_last_seen(&mut self, moment: &Moment) {
        for link in moment.before.changed.difference(&moment.after.changed) {
            match moment.before.value(*link) {
                Some(value) => self.last_seen.insert(*link, value),
                None => self.last_seen.remove(link),
            };
        }
        for link in moment.emptied() {
            self.last_seen.remove(&link);
        }
    }

    fn opening(&mut self, moment: &Moment) {
        if !moment.opens() {
            return;
        }
        let lost = lost(moment.before);
        let left = left_to_loops(moment.before, &lost);
        self.tally.opening(&lost, &left, two_workers_share(moment.before));
        self.cycle = Some(Cycle {
            collector_steps: 0,
            lost: lost.difference(&left).copied().collect(),
            freed: BTreeSet::new(),
            emptied: 0,
        });
    }

    fn remember_freed(&mut self, moment: &Moment) {
        if let Some(cycle) = &mut self.cycle {
            cycle.freed.extend(moment.freed());
            cycle.emptied += moment.emptied().count();
        }
    }

    /// A report for each cycle: a cycle is reported exactly where one closes, with as many records freed
    /// as its steps were answered. An entry makes one count fall and one rise at most, and a link that is
    /// emptied, in freeing or of a waiting record, one fall. What a cycle did to the counts its collector steps did, and between two cycles nothing
    /// happens to them: so the nets of all cycles, together, are the sum of all counts, the links that
    /// are counted.
    fn cycle_is_reported(&mut self, moment: &Moment) -> Result<(), String> {
        let counts_stay = moment.event == Event::Collect || moment.before.counts == moment.after.counts;
        hold(counts_stay, || "an event of a worker changes a count".into())?;
        let reported = self.reported.event(Upon::of(moment.before), moment.after);
        let closed = self.cycle.as_ref().filter(|_| moment.closes());
        let freed = |cycle: &Cycle| cycle.freed.len();
        hold(reported.map(|cycle| cycle.freed) == closed.map(freed), || {
            format!("reported is {reported:?}, and the cycle that closes has freed {:?}", closed.map(freed))
        })?;
        let Some(cycle) = reported else { return Ok(()) };
        self.tally.cycle(&cycle);
        let (taken, emptied) = (cycle.taken as i64, closed.map_or(0, |cycle| cycle.emptied) as i64);
        hold((-taken..=taken).contains(&(cycle.net + emptied)), || format!("no cycle can be so: {cycle}"))?;
        self.nets += cycle.net;
        let counted = sum_of_counts(moment.after);
        hold(self.nets == counted, || {
            format!("the nets of all cycles are {}, and the sum of all counts is {counted}", self.nets)
        })
    }

    /// A cycle closes within 3W + 2S + N + 2 collector steps, the opening and the closing one
    /// included.
    fn cycle_is_short(&mut self, moment: &Moment) -> Result<(), String> {
        let sizes = moment.after.sizes;
        let most = 3 * usize::from(sizes.w) + 2 * sizes.s() + usize::from(sizes.n) + 2;
        if let (Some(cycle), Event::Collect) = (&mut self.cycle, moment.event) {
            cycle.collector_steps += 1;
            return hold(cycle.collector_steps <= most, || {
                format!("the cycle did not close within 3W + 2S + N + 2 = {most} collector steps")
            });
        }
        Ok(())
    }

    /// "it waits, and is freed in the next cycle": so is whatever waited when a cycle closed.
    fn waited_is_freed(&mut self, moment: &Moment) -> Result<(), String> {
        let (true, Some(cycle)) = (moment.closes(), &self.cycle) else { return Ok(()) };
        let waits = waiting(moment.before);
        let waited = std::mem::replace(&mut self.waited, waits);
        let left: Vec<u16> = waited.difference(&cycle.freed).map(|record| record.0).collect();
        hold(left.is_empty(), || format!("waited in the cycle before, and not freed in this one: {left:?}"))
    }

    /// What was lost at the opening, loops aside, was freed in that cycle.
    fn lost_is_freed(&mut self, moment: &Moment) -> Result<(), String> {
        if !moment.closes() {
            return Ok(());
        }
        let Some(cycle) = self.cycle.take() else {
            return Err("a cycle closed that was not opened".into());
        };
        let left: Vec<u16> = cycle.lost.difference(&cycle.freed).map(|record| record.0).collect();
        hold(left.is_empty(), || {
            format!("lost at the opening, loops aside, and not freed in that cycle: {left:?}")
        })
    }

    /// At each close the counts are those of the values last seen.
    fn counts_at_the_close(&self, moment: &Moment) -> Result<(), String> {
        let hold_now =
            !moment.closes() || tallies_are_the_counts(moment.after, self.last_seen.values().copied());
        hold(hold_now, || "at the close the counts are not those of the values last seen".into())
    }
}

/// "A refused event has the value 0 and changes nothing."
fn refused_changes_nothing(moment: &Moment) -> Result<(), String> {
    let nothing = moment.answer.value.is_none() && moment.before == moment.after;
    hold(moment.answer.number == 0 || nothing, || "a refused event has a value or changes something".into())
}

/// A freed record is out of reach of every register and board entry.
fn freed_is_out_of_reach(moment: &Moment) -> Result<(), String> {
    match moment.freed() {
        Some(record) => hold(!reached(moment.before).contains(&record), || {
            format!("record {} was freed and is in reach of a register or a board entry", record.0)
        }),
        None => Ok(()),
    }
}

/// What a collector step empties is a link of a record that is out of reach, freed or not: nobody can see
/// that it was emptied.
fn emptied_is_out_of_reach(moment: &Moment) -> Result<(), String> {
    let emptied: BTreeSet<Option<Record>> = moment.emptied().map(Link::record).collect();
    if emptied.is_empty() {
        return Ok(());
    }
    let reached = reached(moment.before);
    let lost = |record: &Option<Record>| record.is_some_and(|record| !reached.contains(&record));
    hold(emptied.iter().all(lost), || {
        "a collector step emptied a board entry, or a link in reach of a register or a board entry".into()
    })
}
