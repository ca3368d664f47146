//! A pool that owns its tables.

use crate::event::{Event, Record};
use crate::raw::{self, Sound};
use crate::refusal::Refusal;
use crate::sizes::{Collector, Sizes, Tables};
use crate::trace::{answered, Answer};

/// A pool of records, its workers and its collector, with tables of its own.
///
/// The tables are made fresh, or checked once, and changed by events alone, each of which leaves a
/// sound pool a sound pool; so an event on a `Pool` does not look through the tables first, as it
/// does on [`Lent`](crate::Lent) ones.
///
/// In every call `w` is a worker, `r` and `q` are registers of it, `f` is a link of the record in `q`,
/// and `e` is a board entry, each counted from 0.
#[derive(Clone, Debug, PartialEq, Eq)]
pub struct Pool {
    sound: Sound,
}

impl Pool {
    /// A fresh pool: every record free, every register, link and board entry none.
    ///
    /// Refuses by [`Refusal::WrongSize`] where a size is out of its range.
    ///
    /// ```
    /// use yuyarisun::{Pool, Refusal, Sizes};
    ///
    /// assert!(Pool::new(Sizes { n: 1024, k: 8, w: 8, r: 16, b: 16 }).is_ok());
    /// assert_eq!(Pool::new(Sizes { n: 1025, k: 8, w: 8, r: 16, b: 16 }), Err(Refusal::WrongSize));
    /// ```
    pub fn new(sizes: Sizes) -> Result<Pool, Refusal> {
        Sound::fresh(sizes).map(|sound| Pool { sound }).ok_or(Refusal::WrongSize)
    }

    /// The pool that lies in tables from elsewhere, which are checked once.
    ///
    /// Refuses by [`Refusal::WrongSize`] where a size is out of its range or a table has another
    /// length, and by [`Refusal::NotSound`] where the pool is not sound.
    ///
    /// ```
    /// use yuyarisun::{Pool, Refusal, Sizes};
    ///
    /// let sizes = Sizes { n: 4, k: 1, w: 1, r: 1, b: 0 };
    /// let mut pool = Pool::new(sizes)?;
    /// let made = pool.make(0, 0)?;
    ///
    /// let (tables, collector) = pool.into_tables();
    /// let mut wrong = tables.clone();
    /// wrong.counts[0] = 7; // no link counts for record 1
    /// assert_eq!(Pool::from_tables(sizes, wrong, collector), Err(Refusal::NotSound));
    ///
    /// let mut again = Pool::from_tables(sizes, tables, collector)?;
    /// assert_eq!(again.move_register(0, 0, 0)?, Some(made));
    /// # Ok::<(), Refusal>(())
    /// ```
    pub fn from_tables(sizes: Sizes, tables: Tables, collector: Collector) -> Result<Pool, Refusal> {
        let fits = sizes.in_range() && tables.are_exact(sizes);
        let refusal = if fits { Refusal::NotSound } else { Refusal::WrongSize };
        Sound::checked(sizes, tables, collector).map(|sound| Pool { sound }).ok_or(refusal)
    }

    /// The tables and the collector's record, to put away.
    pub fn into_tables(self) -> (Tables, Collector) {
        self.sound.into_tables()
    }

    /// Any event: its value, or why it is refused.
    ///
    /// ```
    /// use yuyarisun::{Event, Pool, Refusal, Sizes};
    ///
    /// let mut pool = Pool::new(Sizes { n: 1, k: 1, w: 1, r: 1, b: 0 })?;
    /// let make = Event::Make { w: 0, r: 0 };
    /// let events = [make, make, Event::Collect, Event::Drop { w: 1, r: 0 }];
    /// let answers = events.map(|event| pool.event(event).map(|value| value.map(|record| record.number())));
    /// assert_eq!(answers, [Ok(Some(1)), Err(Refusal::NoneFree), Ok(None), Err(Refusal::NoSuchWorker)]);
    /// # Ok::<(), Refusal>(())
    /// ```
    pub fn event(&mut self, event: Event) -> Answer {
        let (number, value) = self.sound.event(event);
        answered(number, value)
    }

    /// Many events, one after another: what each is answered. One that is refused changes nothing,
    /// and those behind it are done.
    ///
    /// ```
    /// use yuyarisun::{Event, Pool, Record, Refusal, Sizes};
    ///
    /// let mut pool = Pool::new(Sizes { n: 1, k: 1, w: 1, r: 2, b: 0 })?;
    /// let events = [Event::Make { w: 0, r: 0 }, Event::Make { w: 0, r: 1 }, Event::Move { w: 0, r: 1, q: 0 }];
    /// let first = Record::of_number(1);
    /// assert_eq!(pool.run(events), [Ok(first), Err(Refusal::NoneFree), Ok(first)]);
    /// # Ok::<(), Refusal>(())
    /// ```
    pub fn run(&mut self, events: impl IntoIterator<Item = Event>) -> Vec<Answer> {
        events.into_iter().map(|event| self.event(event)).collect()
    }

    /// The first free record above the last one made, else the lowest, becomes used, and register `r`
    /// holds it.
    ///
    /// Refuses by [`Refusal::NoSuchWorker`], then by [`Refusal::NoSuchRegister`], and then by
    /// [`Refusal::NoneFree`] where no record is free.
    ///
    /// ```
    /// use yuyarisun::{Pool, Refusal, Sizes};
    ///
    /// let mut pool = Pool::new(Sizes { n: 1, k: 1, w: 1, r: 2, b: 0 })?;
    /// assert_eq!(pool.make(0, 0)?.number(), 1);
    /// assert_eq!(pool.make(0, 1), Err(Refusal::NoneFree));
    /// assert_eq!(pool.make(1, 0), Err(Refusal::NoSuchWorker));
    /// # Ok::<(), Refusal>(())
    /// ```
    pub fn make(&mut self, w: u8, r: u8) -> Result<Record, Refusal> {
        let made = self.event(Event::Make { w, r })?;
        Ok(made.expect("a make that is done has made a record"))
    }

    /// Register `r` takes what `q` holds, which is answered.
    ///
    /// Refuses by [`Refusal::NoSuchWorker`], and then by [`Refusal::NoSuchRegister`].
    ///
    /// ```
    /// use yuyarisun::{Pool, Sizes};
    ///
    /// let mut pool = Pool::new(Sizes { n: 1, k: 1, w: 1, r: 2, b: 0 })?;
    /// let made = pool.make(0, 0)?;
    /// assert_eq!(pool.move_register(0, 1, 0)?, Some(made));
    /// # Ok::<(), yuyarisun::Refusal>(())
    /// ```
    pub fn move_register(&mut self, w: u8, r: u8, q: u8) -> Result<Option<Record>, Refusal> {
        self.event(Event::Move { w, r, q })
    }

    /// Register `r` becomes none. What it held is freed by the collector, once nobody can reach it.
    ///
    /// Refuses by [`Refusal::NoSuchWorker`], and then by [`Refusal::NoSuchRegister`].
    pub fn drop_register(&mut self, w: u8, r: u8) -> Result<(), Refusal> {
        self.event(Event::Drop { w, r }).map(|_| ())
    }

    /// Register `r` takes link `f` of the record in `q`, which is answered.
    ///
    /// Refuses by [`Refusal::NoSuchWorker`], then by [`Refusal::NoSuchRegister`], then by
    /// [`Refusal::NoSuchLink`], and then by [`Refusal::HoldsNone`] where `q` holds none.
    ///
    /// ```
    /// use yuyarisun::{Pool, Refusal, Sizes};
    ///
    /// let mut pool = Pool::new(Sizes { n: 1, k: 1, w: 1, r: 2, b: 0 })?;
    /// let made = pool.make(0, 0)?;
    /// assert_eq!(pool.load(0, 1, 0, 0)?, None);
    /// pool.store(0, 0, 0, 0)?;
    /// assert_eq!(pool.load(0, 1, 0, 0)?, Some(made));
    /// # Ok::<(), Refusal>(())
    /// ```
    pub fn load(&mut self, w: u8, r: u8, q: u8, f: u8) -> Result<Option<Record>, Refusal> {
        self.event(Event::Load { w, r, q, f })
    }

    /// Link `f` of the record in `q` takes what `r` holds, which may be none. The value that was
    /// overwritten is answered.
    ///
    /// Refuses by [`Refusal::NoSuchWorker`], then by [`Refusal::NoSuchRegister`], then by
    /// [`Refusal::NoSuchLink`], and then by [`Refusal::HoldsNone`] where `q` holds none.
    ///
    /// ```
    /// use yuyarisun::{Pool, Sizes};
    ///
    /// let mut pool = Pool::new(Sizes { n: 2, k: 1, w: 1, r: 2, b: 0 })?;
    /// pool.make(0, 0)?;
    /// let second = pool.make(0, 1)?;
    /// assert_eq!(pool.store(0, 0, 0, 1)?, None);
    /// assert_eq!(pool.store(0, 0, 0, 0)?, Some(second));
    /// # Ok::<(), yuyarisun::Refusal>(())
    /// ```
    pub fn store(&mut self, w: u8, q: u8, f: u8, r: u8) -> Result<Option<Record>, Refusal> {
        self.event(Event::Store { w, q, f, r })
    }

    /// Register `r` takes what board entry `e` holds, which is answered.
    ///
    /// Refuses by [`Refusal::NoSuchWorker`], then by [`Refusal::NoSuchRegister`], and then by
    /// [`Refusal::NoSuchLink`] where there is no such entry.
    ///
    /// ```
    /// use yuyarisun::{Pool, Refusal, Sizes};
    ///
    /// let mut pool = Pool::new(Sizes { n: 1, k: 1, w: 2, r: 1, b: 1 })?;
    /// let made = pool.make(0, 0)?;
    /// pool.post(0, 0, 0)?;
    /// assert_eq!(pool.look(1, 0, 0)?, Some(made)); // now worker 1 has it too
    /// assert_eq!(pool.look(1, 0, 1), Err(Refusal::NoSuchLink));
    /// # Ok::<(), Refusal>(())
    /// ```
    pub fn look(&mut self, w: u8, r: u8, e: u8) -> Result<Option<Record>, Refusal> {
        self.event(Event::Look { w, r, e })
    }

    /// Board entry `e` takes what `r` holds, which may be none. The value that was overwritten is
    /// answered. What the board holds is not freed, whoever drops it.
    ///
    /// Refuses by [`Refusal::NoSuchWorker`], then by [`Refusal::NoSuchRegister`], and then by
    /// [`Refusal::NoSuchLink`] where there is no such entry.
    ///
    /// ```
    /// use yuyarisun::{Pool, Sizes};
    ///
    /// let mut pool = Pool::new(Sizes { n: 1, k: 1, w: 1, r: 1, b: 1 })?;
    /// let made = pool.make(0, 0)?;
    /// assert_eq!(pool.post(0, 0, 0)?, None);
    /// pool.drop_register(0, 0)?;
    /// assert_eq!(pool.post(0, 0, 0)?, Some(made)); // none, over it
    /// # Ok::<(), yuyarisun::Refusal>(())
    /// ```
    pub fn post(&mut self, w: u8, e: u8, r: u8) -> Result<Option<Record>, Refusal> {
        self.event(Event::Post { w, e, r })
    }

    /// One collector step; the record that it freed, if it freed one. It is never refused.
    ///
    /// How far it has come is [`Pool::collector`]: a cycle opens with the step out of phase 0 and
    /// closes with the step back to it. None says nothing of a close: a step may only empty links of a
    /// record that waits to be freed.
    ///
    /// ```
    /// use yuyarisun::{Pool, Sizes};
    ///
    /// let mut pool = Pool::new(Sizes { n: 2, k: 1, w: 1, r: 1, b: 0 })?;
    /// let made = pool.make(0, 0)?;
    /// pool.drop_register(0, 0)?;
    /// let steps: Vec<_> = (0..6).map(|_| pool.collect()).collect();
    /// assert_eq!(steps, [None, None, None, None, Some(made), None]);
    /// assert_eq!(pool.collector().closed, 1);
    /// # Ok::<(), yuyarisun::Refusal>(())
    /// ```
    pub fn collect(&mut self) -> Option<Record> {
        self.event(Event::Collect).expect("a collector step on a sound pool is not refused")
    }

    /// How many records are free.
    ///
    /// ```
    /// use yuyarisun::{Pool, Sizes};
    ///
    /// let mut pool = Pool::new(Sizes { n: 8, k: 1, w: 1, r: 1, b: 0 })?;
    /// pool.make(0, 0)?;
    /// assert_eq!(pool.free_records(), 7);
    /// # Ok::<(), yuyarisun::Refusal>(())
    /// ```
    pub fn free_records(&self) -> usize {
        raw::free_records(self.sizes().n, &self.tables().used)
    }

    /// The sizes that it was made with.
    pub fn sizes(&self) -> Sizes {
        self.sound.sizes()
    }

    /// The collector's own record.
    pub fn collector(&self) -> Collector {
        self.sound.collector()
    }

    /// The tables, to read.
    ///
    /// ```
    /// use yuyarisun::{Pool, Sizes};
    ///
    /// let mut pool = Pool::new(Sizes { n: 8, k: 1, w: 2, r: 1, b: 0 })?;
    /// pool.make(1, 0)?;
    /// assert_eq!(pool.tables().registers, [0, 1, 1]); // worker 0, worker 1, the last made number
    /// assert_eq!(pool.tables().makers[0], 2); // worker 1
    /// # Ok::<(), yuyarisun::Refusal>(())
    /// ```
    pub fn tables(&self) -> &Tables {
        self.sound.tables()
    }
}
