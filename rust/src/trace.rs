//! What is answered: to an event, to many events and to whole traces in bytes, and of the cycles of a
//! trace; and the checked calls that answer it, on tables that are in the open.

use std::error::Error;
use std::fmt;

use crate::event::{Event, Record};
use crate::lent::Lent;
use crate::raw;
use crate::refusal::Refusal;
use crate::sizes::Sizes;

/// What an event is answered: its value, or why it is refused.
pub type Answer = Result<Option<Record>, Refusal>;

/// Many events or a trace did not go to their end: why, and at which byte. The events before it are
/// done.
///
/// ```
/// use yuyarisun::replay;
///
/// let stop = replay(&[0x7F, 0, 4, 0, 0, 0, 0]).ending.unwrap_err();
/// assert_eq!((stop.refusal.number(), stop.place), (7, 0));
/// assert_eq!(stop.to_string(), "at byte 0: tag unknown, first field not the sizes, or sizes a second time");
/// ```
#[derive(Clone, Copy, Debug, PartialEq, Eq, Hash)]
pub struct Stop {
    /// Why.
    pub refusal: Refusal,
    /// Where the field begins that is refused, or where the extra byte is.
    pub place: usize,
    /// How many events were done before.
    pub events: usize,
}

impl fmt::Display for Stop {
    fn fmt(&self, out: &mut fmt::Formatter) -> fmt::Result {
        write!(out, "at byte {}: {}", self.place, self.refusal)
    }
}

impl Error for Stop {
    fn source(&self) -> Option<&(dyn Error + 'static)> {
        Some(&self.refusal)
    }
}

/// A whole trace was replayed on lent tables.
#[derive(Clone, Copy, Debug, PartialEq, Eq, Hash)]
pub struct Whole {
    /// How many events it had.
    pub events: usize,
    /// How many records are free at its end.
    pub free: u16,
}

/// The numbers of a closed cycle.
#[derive(Clone, Copy, Debug, PartialEq, Eq, Hash)]
pub struct Cycle {
    /// The entries moved into the history.
    pub taken: u64,
    /// The records freed.
    pub freed: u64,
    /// The sum of all counts just after the close less that sum at the opening: below 0 where the links
    /// that are counted have become fewer.
    pub net: i32,
}

impl fmt::Display for Cycle {
    fn fmt(&self, out: &mut fmt::Formatter) -> fmt::Result {
        write!(out, "taken {} freed {} net {}", self.taken, self.freed, self.net)
    }
}

/// A trace was reported on lent tables.
#[derive(Clone, Copy, Debug, PartialEq, Eq, Hash)]
pub struct Reported {
    /// How many cycles closed.
    pub cycles: usize,
    /// How the trace ended; or where it is refused, and why.
    pub ending: Result<Whole, Stop>,
}

/// How many numbers the answers of all events in so many bytes take at most: a number and a value
/// for each, and no event field has fewer than 7 bytes.
pub fn answers_length(bytes: usize) -> usize {
    2 * (bytes / 7)
}

/// The answers that [`Lent::events`] and [`Lent::trace`] put into a slice: the number and the value
/// of each event, in turn. Of more than one call was answered, or had room for, it gives what
/// happens to stand there, and panics at a number that no call answers.
///
/// ```
/// use yuyarisun::{answers_in, Record, Refusal};
///
/// let answers: Vec<_> = answers_in(&[0, 7, 5, 0, 0, 0]).collect();
/// assert_eq!(answers, [Ok(Record::of_number(7)), Err(Refusal::NoneFree), Ok(None)]);
/// ```
pub fn answers_in(numbers: &[u16]) -> impl Iterator<Item = Answer> + '_ {
    numbers.chunks_exact(2).map(|pair| answered(pair[0], pair[1]))
}

/// How many numbers all cycles of a trace of so many bytes take at most: three for each, and a cycle has
/// five steps or more of 7 bytes.
pub fn cycles_length(bytes: usize) -> usize {
    3 * (bytes / 35)
}

/// The cycles whose numbers [`Lent::report`] put into a slice, three for each. Of more than one call was
/// answered, or had room for, it gives what happens to stand there, and panics at numbers that no cycle
/// has.
///
/// ```
/// use yuyarisun::{cycles_in, Cycle};
///
/// let cycles: Vec<_> = cycles_in(&[2, 0, 2, 3, 1, -2]).collect();
/// assert_eq!(cycles, [Cycle { taken: 2, freed: 0, net: 2 }, Cycle { taken: 3, freed: 1, net: -2 }]);
/// ```
pub fn cycles_in(numbers: &[i64]) -> impl Iterator<Item = Cycle> + '_ {
    const NO_CYCLE: &str = "numbers that no cycle has";
    let count = |number: i64| u64::try_from(number).expect(NO_CYCLE);
    numbers.chunks_exact(3).map(move |three| Cycle {
        taken: count(three[0]),
        freed: count(three[1]),
        net: i32::try_from(three[2]).expect(NO_CYCLE),
    })
}

/// What an event is answered, of its number and its value.
pub(crate) fn answered(number: u16, value: u16) -> Answer {
    Refusal::answered(number).map(|()| Record::of_number(value))
}

/// What many events or a trace are answered, of the numbers.
fn whole(ended: raw::Ended) -> Result<Whole, Stop> {
    let raw::Ended { number, events, free, place } = ended;
    match Refusal::answered(number) {
        Ok(()) => Ok(Whole { events, free }),
        Err(refusal) => Err(Stop { refusal, place, events }),
    }
}

/// The checked calls.
impl Lent {
    /// Any event: its value, or why it is refused, [`Refusal::WrongSize`] and [`Refusal::NotSound`]
    /// before all else. A refused event changes nothing.
    ///
    /// ```
    /// use yuyarisun::{Collector, Event, Lent, Refusal, Sizes, Tables};
    ///
    /// let sizes = Sizes { n: 4, k: 1, w: 1, r: 1, b: 0 };
    /// let mut lent = Lent { sizes, tables: Tables::zeros(sizes), collector: Collector::default() };
    /// assert!(lent.is_sound());
    /// assert_eq!(lent.event(Event::Collect), Ok(None));
    /// lent.tables.registers[0] = 5; // there are 4 records
    /// assert_eq!(lent.event(Event::Collect), Err(Refusal::NotSound));
    /// lent.tables.registers.clear();
    /// assert_eq!(lent.event(Event::Collect), Err(Refusal::WrongSize));
    /// ```
    pub fn event(&mut self, event: Event) -> Answer {
        let (number, value) = raw::event(self.sizes, &mut self.tables, &mut self.collector, event);
        answered(number, value)
    }

    /// Many events at once, on tables that are looked through once: event fields one after another,
    /// as a trace has them, the first of which has the step number behind `step`. Each is done
    /// exactly as [`Lent::event`] would do it; `step` becomes the last step number, so that the next
    /// call may go on with it.
    ///
    /// The number and the value of each event go into `answers` in turn, as far as there is room
    /// for both ([`answers_length`] is enough for all), and what lies behind the last stays;
    /// [`answers_in`] reads them. How many events there were is answered.
    ///
    /// Refuses by [`Refusal::WrongSize`] and [`Refusal::NotSound`] before anything is done, at
    /// place 0. Else it stops at the first field that is no event, and the events before it are
    /// done: by the refusals of a trace, and by [`Refusal::WrongTag`] at an end field that would be
    /// right in one.
    ///
    /// ```
    /// use yuyarisun::{answers_in, Collector, Event, Field, Lent, Record, Refusal, Sizes, Tables};
    ///
    /// let sizes = Sizes { n: 4, k: 1, w: 1, r: 1, b: 0 };
    /// let mut lent = Lent { sizes, tables: Tables::zeros(sizes), collector: Collector::default() };
    /// let mut bytes = Vec::new();
    /// Field::Event { step: 1, event: Event::Make { w: 0, r: 0 } }.put(&mut bytes);
    /// Field::Event { step: 2, event: Event::Make { w: 0, r: 1 } }.put(&mut bytes);
    ///
    /// let (mut step, mut numbers) = (0, [0; 4]);
    /// assert_eq!(lent.events(&bytes, &mut step, &mut numbers), Ok(2));
    /// let answers: Vec<_> = answers_in(&numbers).collect();
    /// assert_eq!((step, answers), (2, vec![Ok(Record::of_number(1)), Err(Refusal::NoSuchRegister)]));
    ///
    /// let stop = lent.events(&bytes, &mut step, &mut []).unwrap_err();
    /// assert_eq!((stop.refusal, stop.place, stop.events), (Refusal::WrongStep, 0, 0));
    /// ```
    pub fn events(&mut self, bytes: &[u8], step: &mut u32, answers: &mut [u16]) -> Result<usize, Stop> {
        let Lent { sizes, tables, collector } = self;
        let ended = raw::events(*sizes, tables, collector, bytes, step, answers);
        whole(ended).map(|whole| whole.events)
    }

    /// A whole trace. Its sizes field makes the tables a fresh pool, whatever they held, if they
    /// have the lengths of its sizes. The `sizes` here are not looked at: an accepted sizes field makes
    /// them the trace's, for lengths leave K and B open. `answers` is as for [`Lent::events`].
    ///
    /// Stops where a field is refused, with the tables as the fields before left them.
    ///
    /// ```
    /// use yuyarisun::{Collector, Lent, Refusal, Sizes, Tables};
    ///
    /// let trace = [1, 0, 8, 0, 4, 0, 1, 0, 1, 0, 1, 0x20, 0, 4, 0, 0, 0, 1, 0x7F, 0, 4, 0, 0, 0, 1];
    /// let sizes = Sizes::of_trace(&trace).expect("the sizes stand first");
    /// let mut lent = Lent { sizes, tables: Tables::zeros(sizes), collector: Collector::default() };
    /// let mut numbers = [9; 3];
    /// let whole = lent.trace(&trace, &mut numbers).unwrap();
    /// assert_eq!((whole.events, whole.free, numbers, lent.collector.phase), (1, 4, [0, 0, 9], 1));
    ///
    /// lent.tables.logs.pop();
    /// let stop = lent.trace(&trace, &mut []).unwrap_err();
    /// assert_eq!((stop.refusal, stop.place), (Refusal::WrongSize, 0));
    /// ```
    pub fn trace(&mut self, bytes: &[u8], answers: &mut [u16]) -> Result<Whole, Stop> {
        let ended = raw::trace(&mut self.tables, &mut self.collector, bytes, answers);
        self.take_sizes(bytes, &ended);
        whole(ended)
    }

    /// A report of a whole trace: it does with the tables, the sizes and the collector's record what
    /// [`Lent::trace`] does, and puts the three numbers of each cycle that closes into `numbers` in turn,
    /// as far as there is room for all three ([`cycles_length`] is enough for all). What lies behind the
    /// last stays; [`cycles_in`] reads them. A cycle that is still open is none of them.
    ///
    /// ```
    /// use yuyarisun::{cycles_in, Collector, Cycle, Event, Field, Lent, Sizes, Tables};
    ///
    /// let sizes = Sizes { n: 2, k: 1, w: 1, r: 1, b: 0 };
    /// let mut trace = Vec::new();
    /// Field::Sizes(sizes).put(&mut trace);
    /// let mut events = vec![Event::Make { w: 0, r: 0 }, Event::Drop { w: 0, r: 0 }];
    /// events.extend([Event::Collect; 8]);
    /// for (step, event) in (1..).zip(events) {
    ///     Field::Event { step, event }.put(&mut trace);
    /// }
    /// Field::End { count: 10 }.put(&mut trace);
    ///
    /// let mut lent = Lent { sizes, tables: Tables::zeros(sizes), collector: Collector::default() };
    /// let mut numbers = [9; 4];
    /// let reported = lent.report(&trace, &mut numbers);
    /// assert_eq!((reported.cycles, reported.ending?.events), (1, 10));
    /// assert_eq!(cycles_in(&numbers[..3]).next(), Some(Cycle { taken: 0, freed: 1, net: 0 }));
    /// assert_eq!((numbers[3], lent.collector.phase), (9, 2));
    /// # Ok::<(), yuyarisun::Stop>(())
    /// ```
    pub fn report(&mut self, bytes: &[u8], numbers: &mut [i64]) -> Reported {
        let (ended, cycles) = raw::report(&mut self.tables, &mut self.collector, bytes, numbers);
        self.take_sizes(bytes, &ended);
        Reported { cycles, ending: whole(ended) }
    }

    /// The sizes of a trace that ended so become those of the tables, if they were accepted: whatever is
    /// refused behind the sizes field has another place.
    fn take_sizes(&mut self, bytes: &[u8], ended: &raw::Ended) {
        let accepted = ended.number == 0 || ended.place > 0;
        self.sizes = Sizes::of_trace(bytes).filter(|_| accepted).unwrap_or(self.sizes);
    }
}
