//! What a worker sets out to do next: a few events in a row, between which the collector and the
//! other workers have their turns. One of them lets the collector step up to a certain moment.
//!
//! A record passes from register to register through links, and from worker to worker through the
//! board, or by being freed and made again.

use crate::event::Event;
use crate::leave::leave_waiting;
use crate::pool::Pool;
use crate::random::Random;
use crate::reach::posted;

#[derive(Clone, Copy, Debug)]
pub enum Habit {
    ChainFromTheTail,
    ChainFromTheHead,
    Share,
    LinkToItself,
    Loop,
    PassThroughALink,
    MoveToAnotherLink,
    StoreAgainAndAgain,
    StoreTheSame,
    Unlink,
    Wander,
    PostAndDrop,
    PostAgainAndAgain,
    PostTheSame,
    LookUp,
    TakeOff,
    LeaveWaiting,
    MakeAll,
    DropAll,
    Anything,
    OutOfRange,
}

impl Habit {
    pub const ALL: [Habit; 21] = [
        Habit::ChainFromTheTail,
        Habit::ChainFromTheHead,
        Habit::Share,
        Habit::LinkToItself,
        Habit::Loop,
        Habit::PassThroughALink,
        Habit::MoveToAnotherLink,
        Habit::StoreAgainAndAgain,
        Habit::StoreTheSame,
        Habit::Unlink,
        Habit::Wander,
        Habit::PostAndDrop,
        Habit::PostAgainAndAgain,
        Habit::PostTheSame,
        Habit::LookUp,
        Habit::TakeOff,
        Habit::LeaveWaiting,
        Habit::MakeAll,
        Habit::DropAll,
        Habit::Anything,
        Habit::OutOfRange,
    ];

    /// Whether it begins with a look at the board, for which no register need hold anything.
    fn looks(self) -> bool {
        matches!(self, Habit::PostTheSame | Habit::LookUp | Habit::TakeOff)
    }

    /// Whether it begins with a record of its own.
    fn makes_its_own(self) -> bool {
        matches!(self, Habit::LeaveWaiting)
    }

    fn is_of_the_board(self) -> bool {
        self.looks() || matches!(self, Habit::PostAndDrop | Habit::PostAgainAndAgain)
    }

    /// The next few events of worker `w`. With nothing in its registers it mostly makes a record
    /// first, or waits for one to be freed; where there is no board it mostly leaves it alone.
    pub fn plan(self, pool: &Pool, w: u8, random: &mut Random) -> Vec<Event> {
        let mut hand = Hand { pool, w, random };
        let needs_none = self.makes_its_own() || self.looks() && posted(pool).next().is_some();
        if hand.is_empty() && !needs_none && hand.random.percent(90) {
            return hand.make_or_wait();
        }
        if self.is_of_the_board() && pool.sizes.b == 0 && hand.random.percent(90) {
            return vec![hand.anything()];
        }
        match self {
            Habit::ChainFromTheTail => hand.chain_from_the_tail(),
            Habit::ChainFromTheHead => hand.chain_from_the_head(),
            Habit::Share => hand.share(),
            Habit::LinkToItself => hand.link_to_itself(),
            Habit::Loop => hand.close_a_loop(),
            Habit::PassThroughALink => hand.pass_through_a_link(),
            Habit::MoveToAnotherLink => hand.move_to_another_link(),
            Habit::StoreAgainAndAgain => hand.store_again_and_again(),
            Habit::StoreTheSame => hand.store_the_same(),
            Habit::Unlink => hand.unlink(),
            Habit::Wander => hand.wander(),
            Habit::PostAndDrop => hand.post_and_drop(),
            Habit::PostAgainAndAgain => hand.post_again_and_again(),
            Habit::PostTheSame => hand.post_the_same(),
            Habit::LookUp => hand.look_up(),
            Habit::TakeOff => hand.take_off(),
            Habit::LeaveWaiting => leave_waiting(pool, w, hand.random),
            Habit::MakeAll => hand.make_all(),
            Habit::DropAll => hand.drop_all(),
            Habit::Anything => vec![hand.anything()],
            Habit::OutOfRange => vec![hand.out_of_range()],
        }
    }
}

/// A worker that looks at its registers and chooses among them.
struct Hand<'a> {
    pool: &'a Pool,
    w: u8,
    random: &'a mut Random,
}

impl Hand<'_> {
    fn register(&mut self) -> u8 {
        self.random.below(self.pool.sizes.r.into()) as u8
    }

    fn is_empty(&self) -> bool {
        self.pool.workers[usize::from(self.w)].registers.iter().all(Option::is_none)
    }

    /// A register that holds a record, if there is one.
    fn full(&mut self) -> u8 {
        let registers = &self.pool.workers[usize::from(self.w)].registers;
        let full: Vec<u8> = (0..).zip(registers).filter(|(_, held)| held.is_some()).map(|(r, _)| r).collect();
        if full.is_empty() {
            self.register()
        } else {
            self.random.pick(&full)
        }
    }

    fn f(&mut self) -> u8 {
        self.random.below(self.pool.sizes.k.into()) as u8
    }

    fn e(&mut self) -> u8 {
        self.random.below(self.pool.sizes.b.into()) as u8
    }

    fn make(&self, r: u8) -> Event {
        Event::Make { w: self.w, r }
    }

    fn move_(&self, r: u8, q: u8) -> Event {
        Event::Move { w: self.w, r, q }
    }

    fn drop(&self, r: u8) -> Event {
        Event::Drop { w: self.w, r }
    }

    fn load(&self, r: u8, q: u8, f: u8) -> Event {
        Event::Load { w: self.w, r, q, f }
    }

    fn store(&self, q: u8, f: u8, r: u8) -> Event {
        Event::Store { w: self.w, q, f, r }
    }

    fn look(&self, r: u8, e: u8) -> Event {
        Event::Look { w: self.w, r, e }
    }

    fn post(&self, e: u8, r: u8) -> Event {
        Event::Post { w: self.w, e, r }
    }

    fn make_or_wait(&mut self) -> Vec<Event> {
        if self.pool.free_records() == 0 {
            return Vec::new();
        }
        let r = self.register();
        vec![self.make(r)]
    }

    /// Each new record links to the one before, and the last made is the head.
    fn chain_from_the_tail(&mut self) -> Vec<Event> {
        let (head, new, f) = (self.full(), self.register(), self.f());
        vec![self.make(new), self.store(new, f, head), self.move_(head, new), self.drop(new)]
    }

    /// The first made stays the head, and the register of the tail walks along.
    fn chain_from_the_head(&mut self) -> Vec<Event> {
        let (tail, new, f) = (self.full(), self.register(), self.f());
        vec![self.make(new), self.store(tail, f, new), self.load(tail, tail, f), self.drop(new)]
    }

    /// Several links hold the same record.
    fn share(&mut self) -> Vec<Event> {
        let shared = self.full();
        (0..3)
            .map(|_| {
                let (q, f) = (self.full(), self.f());
                self.store(q, f, shared)
            })
            .collect()
    }

    fn link_to_itself(&mut self) -> Vec<Event> {
        let (q, f) = (self.full(), self.f());
        let mut events = vec![self.store(q, f, q)];
        if self.random.percent(30) {
            events.push(self.drop(q));
        }
        events
    }

    /// Two records link to each other, at times with a tail, and at times are left alone.
    fn close_a_loop(&mut self) -> Vec<Event> {
        let (a, b, f, g) = (self.register(), self.register(), self.f(), self.f());
        let mut events = vec![self.make(a), self.make(b), self.store(a, f, b), self.store(b, g, a)];
        if self.random.percent(30) {
            let other = self.f();
            events.push(self.make(b));
            events.push(self.store(a, other, b));
        }
        if self.random.percent(40) {
            events.push(self.drop(a));
            events.push(self.drop(b));
        }
        events
    }

    /// For a while the link alone holds the record.
    fn pass_through_a_link(&mut self) -> Vec<Event> {
        let (q, f, from, to) = (self.full(), self.f(), self.full(), self.register());
        vec![self.store(q, f, from), self.drop(from), self.load(to, q, f)]
    }

    /// A record's only link is emptied after another took it over.
    fn move_to_another_link(&mut self) -> Vec<Event> {
        let (a, b, f, g, passing) = (self.full(), self.full(), self.f(), self.f(), self.register());
        vec![
            self.load(passing, a, f),
            self.store(b, g, passing),
            self.drop(passing),
            self.store(a, f, passing),
        ]
    }

    /// One link, now and then with none.
    fn store_again_and_again(&mut self) -> Vec<Event> {
        let (q, f) = (self.full(), self.f());
        (0..8)
            .map(|_| {
                let r = if self.random.percent(70) { self.full() } else { self.register() };
                self.store(q, f, r)
            })
            .collect()
    }

    fn store_the_same(&mut self) -> Vec<Event> {
        let (q, f, r) = (self.full(), self.f(), self.register());
        vec![self.load(r, q, f), self.store(q, f, r)]
    }

    fn unlink(&mut self) -> Vec<Event> {
        let (q, f, none) = (self.full(), self.f(), self.register());
        let mut events = vec![self.drop(none), self.store(q, f, none)];
        if self.random.percent(50) {
            events.push(self.drop(q));
        }
        events
    }

    fn wander(&mut self) -> Vec<Event> {
        (0..3)
            .map(|_| {
                let (r, q, f) = (self.register(), self.full(), self.f());
                self.load(r, q, f)
            })
            .collect()
    }

    /// Another worker may find it there, before the drop or after it; for a while the board may be all
    /// that holds it.
    fn post_and_drop(&mut self) -> Vec<Event> {
        let (e, r) = (self.e(), self.full());
        vec![self.post(e, r), self.drop(r)]
    }

    /// One entry, now and then with none.
    fn post_again_and_again(&mut self) -> Vec<Event> {
        let e = self.e();
        (0..4)
            .map(|_| {
                let r = if self.random.percent(70) { self.full() } else { self.register() };
                self.post(e, r)
            })
            .collect()
    }

    fn post_the_same(&mut self) -> Vec<Event> {
        let (e, r) = (self.e(), self.register());
        vec![self.look(r, e), self.post(e, r)]
    }

    fn look_up(&mut self) -> Vec<Event> {
        (0..2)
            .map(|_| {
                let (r, e) = (self.register(), self.e());
                self.look(r, e)
            })
            .collect()
    }

    /// The entry is emptied once a register holds what it held, or nobody does.
    fn take_off(&mut self) -> Vec<Event> {
        let (e, taken, none) = (self.e(), self.register(), self.register());
        vec![self.look(taken, e), self.drop(none), self.post(e, none)]
    }

    fn make_all(&mut self) -> Vec<Event> {
        let makes = self.pool.free_records() + 1;
        (0..makes)
            .map(|_| {
                let r = self.register();
                self.make(r)
            })
            .collect()
    }

    fn drop_all(&mut self) -> Vec<Event> {
        (0..self.pool.sizes.r as u8).map(|r| self.drop(r)).collect()
    }

    fn anything(&mut self) -> Event {
        let (r, q, f, e) = (self.register(), self.register(), self.f(), self.e());
        match self.random.below(7) {
            0 => self.make(r),
            1 => self.move_(r, q),
            2 => self.drop(r),
            3 => self.load(r, q, f),
            4 => self.store(q, f, r),
            5 => self.look(r, e),
            _ => self.post(e, r),
        }
    }

    /// One to three of the event's numbers are mostly out of range, by one or by far.
    fn out_of_range(&mut self) -> Event {
        let event = self.anything();
        let mut numbers = event.numbers();
        let sizes = self.pool.sizes;
        for _ in 0..1 + self.random.below(3) {
            let place = self.random.below(numbers.len());
            let size = self.random.pick(&[sizes.w, sizes.r, sizes.k, sizes.b]);
            numbers[place] = self.random.pick(&[size as u8, size as u8 + 1, 255]);
        }
        event.kind().event(&numbers).unwrap_or(event)
    }
}
