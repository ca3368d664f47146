//! One pool three times: in the second program, in tables lent to the checked calls, and in the
//! Rust type, whose events are the inner ones.

use second::event::{happen, Event};
use second::pool::{Pool, Record};
use yuyarisun::{Answer, Lent, Refusal, Tables};

use crate::ends;
use crate::lie::{each, sizes_of, written, TABLES};
use crate::reached::{Reached, Upon};

pub const FREED: &str = "collect: a record is freed";
pub const GOES_ON_AT_0: &str = "collect: the closed-cycle number goes on at 0 after 65,535";
pub const FULL_LOG: &str = "a log with S entries";
pub const FULL_HISTORY: &str = "a history with S entries";

#[derive(Clone)]
pub struct Both {
    pub second: Pool,
    lent: Lent,
    pool: yuyarisun::Pool,
}

pub fn event_of(event: Event) -> yuyarisun::Event {
    match event {
        Event::Make { w, r } => yuyarisun::Event::Make { w, r },
        Event::Move { w, r, q } => yuyarisun::Event::Move { w, r, q },
        Event::Drop { w, r } => yuyarisun::Event::Drop { w, r },
        Event::Load { w, r, q, f } => yuyarisun::Event::Load { w, r, q, f },
        Event::Store { w, q, f, r } => yuyarisun::Event::Store { w, q, f, r },
        Event::Look { w, r, e } => yuyarisun::Event::Look { w, r, e },
        Event::Post { w, e, r } => yuyarisun::Event::Post { w, e, r },
        Event::Collect => yuyarisun::Event::Collect,
    }
}

pub fn answer_of(answer: second::event::Answer) -> Answer {
    match Refusal::of_number(answer.number.into()) {
        Some(refusal) => Err(refusal),
        None => Ok(answer.value.and_then(|Record(number)| yuyarisun::Record::of_number(number))),
    }
}

pub fn hold(holds: bool, sentence: impl FnOnce() -> String) -> Result<(), String> {
    if holds {
        Ok(())
    } else {
        Err(sentence())
    }
}

/// Every table entry and the collector's record are the same.
pub fn same(who: &str, expected: &Lent, found: (&Tables, yuyarisun::Collector)) -> Result<(), String> {
    if *found.0 == expected.tables && found.1 == expected.collector {
        return Ok(());
    }
    let (mut should, mut is) = (expected.tables.clone(), found.0.clone());
    for (name, (should, is)) in TABLES.into_iter().zip(each(&mut should).into_iter().zip(each(&mut is))) {
        let differs = |at: &usize| should.at(*at) != is.at(*at);
        if let Some(at) = (0..should.len().max(is.len())).find(differs) {
            let (should, is) = (should.at(at), is.at(at));
            return Err(format!("{who}: {name} at {at} is {is:?} and should be {should:?}"));
        }
    }
    Err(format!("{who}: the collector's record is {:?} and should be {:?}", found.1, expected.collector))
}

impl Both {
    pub fn fresh(sizes: second::pool::Sizes) -> Result<Both, String> {
        let second = Pool::fresh(sizes);
        let mut lent = written(&second);
        for (i, number) in lent.tables.values.iter_mut().chain(&mut lent.tables.logs).enumerate() {
            *number = i as u16;
        }
        let t = &mut lent.tables;
        for words in [&mut t.used, &mut t.held, &mut t.candidates, &mut t.changed] {
            words.fill(u64::MAX);
        }
        lent.collector.phase = 9;
        lent.fresh().map_err(|refusal| format!("fresh is refused: {refusal}"))?;
        let pool = yuyarisun::Pool::new(sizes_of(sizes))
            .map_err(|refusal| format!("a new pool is refused: {refusal}"))?;
        let both = Both { second, lent, pool };
        both.same(&written(&both.second)).map(|()| both)
    }

    /// A pool that the second program finds sound, which the library has to find sound too.
    pub fn of(second: Pool) -> Result<Both, String> {
        let lent = written(&second);
        hold(lent.is_sound(), || "the library does not find a sound pool sound".into())?;
        let pool = yuyarisun::Pool::from_tables(lent.sizes, lent.tables.clone(), lent.collector)
            .map_err(|refusal| format!("tables of a sound pool are refused: {refusal}"))?;
        Ok(Both { second, lent, pool })
    }

    fn same(&self, expected: &Lent) -> Result<(), String> {
        same("checked call", expected, (&self.lent.tables, self.lent.collector))?;
        same("inner event", expected, (self.pool.tables(), self.pool.collector()))
    }

    /// One event on all three: the number, the value and every table entry are the same.
    pub fn event(&mut self, event: Event, reached: &mut Reached) -> Result<(), String> {
        let told = |sentence| format!("{event:?}: {sentence}");
        let (upon, closed) = (Upon::of(&self.second, event), self.second.closed);
        let at_ends = ends::Upon::of(&self.second);
        let answer = happen(&mut self.second, event);
        let expected = answer_of(answer);
        let checked = self.lent.event(event_of(event));
        hold(checked == expected, || {
            told(format!("checked call: answered {checked:?} and not {expected:?}"))
        })?;
        let inner = self.pool.event(event_of(event));
        hold(inner == expected, || told(format!("inner event: answered {inner:?} and not {expected:?}")))?;
        let after = written(&self.second);
        self.same(&after).map_err(told)?;
        let free = [self.lent.free_records(), self.pool.free_records()];
        hold(free == [self.second.free_records(); 2], || told(format!("free records: {free:?}")))?;
        reached.event(event, upon, answer.number);
        at_ends.came(event, answer, &self.second).for_each(|words| reached.situation(words));
        ends::last_words(&after).iter().for_each(|words| reached.situation(words));
        let s = self.second.sizes.s();
        let situations = [
            (event == Event::Collect && answer.value.is_some(), FREED),
            (closed == u16::MAX && self.second.closed == 0, GOES_ON_AT_0),
            (self.second.workers.iter().any(|worker| worker.log.len() == s), FULL_LOG),
            (self.second.history.len() == s, FULL_HISTORY),
        ];
        situations.into_iter().filter(|(came, _)| *came).for_each(|(_, words)| reached.situation(words));
        reached.sizes(self.second.sizes);
        Ok(())
    }
}
