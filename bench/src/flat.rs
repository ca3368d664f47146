//! A pool in flat arrays of fixed size, as one would write it for speed and without proofs: marks
//! are bytes, a link number has the largest K as its stride, and the first overwritten value of a
//! changed link stands beside the link, so that no log is searched.

use std::array;

/// A link, and the value that was overwritten.
type Entry = (u16, u16);

#[derive(Clone)]
pub struct Pool<const N: usize, const K: usize, const W: usize, const R: usize, const B: usize> {
    n: usize,
    k: usize,
    w: usize,
    r: usize,
    b: usize,
    used: [bool; N],
    counts: [u16; N],
    held: [bool; N],
    candidates: [bool; N],
    makers: [u8; N],
    values: [[u16; K]; N],
    changed: [[bool; K]; N],
    olds: [[u16; K]; N],
    /// The board, whose link numbers follow those of N records.
    board: [u16; B],
    board_changed: [bool; B],
    board_olds: [u16; B],
    registers: [[u16; R]; W],
    last_made: usize,
    snoops: [bool; W],
    logs: [Vec<Entry>; W],
    history: Vec<Entry>,
    phase: u8,
    position: usize,
    closed: u16,
}

pub const DONE: u16 = 0;
pub const NO_SUCH_WORKER: u16 = 3;
pub const HOLDS_NONE: u16 = 4;
pub const NONE_FREE: u16 = 5;
pub const NO_SUCH_REGISTER: u16 = 13;
pub const NO_SUCH_LINK: u16 = 14;

/// The number, and the value.
pub type Answer = (u16, u16);

impl<const N: usize, const K: usize, const W: usize, const R: usize, const B: usize> Pool<N, K, W, R, B> {
    /// The number of board entry 0.
    const BOARD: usize = N * K;

    /// A fresh pool, if the sizes are within the arrays.
    pub fn fresh(n: usize, k: usize, w: usize, r: usize, b: usize) -> Option<Self> {
        let fits = |size: usize, largest: usize| (1..=largest).contains(&size);
        (fits(n, N) && fits(k, K) && fits(w, W) && fits(r, R) && b <= B).then(|| Pool {
            n,
            k,
            w,
            r,
            b,
            used: [false; N],
            counts: [0; N],
            held: [false; N],
            candidates: [false; N],
            makers: [0; N],
            values: [[0; K]; N],
            changed: [[false; K]; N],
            olds: [[0; K]; N],
            board: [0; B],
            board_changed: [false; B],
            board_olds: [0; B],
            registers: [[0; R]; W],
            last_made: 0,
            snoops: [false; W],
            logs: array::from_fn(|_| Vec::with_capacity(n * k + b)),
            history: Vec::with_capacity(n * k + b),
            phase: 0,
            position: 0,
            closed: 0,
        })
    }

    pub fn free_records(&self) -> usize {
        self.used[..self.n].iter().filter(|used| !**used).count()
    }

    pub fn has_free(&self) -> bool {
        self.used[..self.n].contains(&false)
    }

    pub fn closed(&self) -> u16 {
        self.closed
    }

    pub fn register(&self, w: usize, r: usize) -> u16 {
        self.registers[w][r]
    }

    /// The event of a trace's tag, with its numbers in the trace's order.
    #[inline]
    pub fn event(&mut self, tag: u8, a: u8, b: u8, c: u8, d: u8) -> Answer {
        let (a, b, c, d) = (a as usize, b as usize, c as usize, d as usize);
        match tag {
            0x10 => self.make(a, b),
            0x11 => self.move_(a, b, c),
            0x12 => self.drop_(a, b),
            0x13 => self.load(a, b, c, d),
            0x14 => self.store(a, b, c, d),
            0x15 => self.look(a, b, c),
            0x16 => self.post(a, b, c),
            _ => (DONE, self.collect()),
        }
    }

    /// Which number was wrong, of an event of which one was.
    #[cold]
    fn wrong_number(&self, w: usize, r: usize, q: usize) -> Answer {
        let number = if w >= self.w {
            NO_SUCH_WORKER
        } else if r >= self.r || q >= self.r {
            NO_SUCH_REGISTER
        } else {
            NO_SUCH_LINK
        };
        (number, 0)
    }

    /// The first place between two at which a record is free.
    #[inline]
    fn first_free(&self, from: usize, to: usize) -> Option<usize> {
        self.used[from..to].iter().position(|used| !used).map(|further| from + further)
    }

    #[inline]
    pub fn make(&mut self, w: usize, r: usize) -> Answer {
        if w >= self.w || r >= self.r {
            return self.wrong_number(w, r, r);
        }
        let Some(place) =
            self.first_free(self.last_made, self.n).or_else(|| self.first_free(0, self.last_made))
        else {
            return (NONE_FREE, 0);
        };
        self.used[place] = true;
        self.last_made = place + 1;
        self.makers[place] = w as u8 + 1;
        self.registers[w][r] = place as u16 + 1;
        (DONE, place as u16 + 1)
    }

    #[inline]
    pub fn move_(&mut self, w: usize, r: usize, q: usize) -> Answer {
        if w >= self.w || r >= self.r || q >= self.r {
            return self.wrong_number(w, r, q);
        }
        self.registers[w][r] = self.registers[w][q];
        (DONE, self.registers[w][r])
    }

    #[inline]
    pub fn drop_(&mut self, w: usize, r: usize) -> Answer {
        if w >= self.w || r >= self.r {
            return self.wrong_number(w, r, r);
        }
        self.registers[w][r] = 0;
        (DONE, 0)
    }

    #[inline]
    pub fn load(&mut self, w: usize, r: usize, q: usize, f: usize) -> Answer {
        if w >= self.w || r >= self.r || q >= self.r || f >= self.k {
            return self.wrong_number(w, r, q);
        }
        let through = self.registers[w][q] as usize;
        if through == 0 {
            return (HOLDS_NONE, 0);
        }
        let value = self.values[through - 1][f];
        self.registers[w][r] = value;
        (DONE, value)
    }

    #[inline]
    pub fn store(&mut self, w: usize, q: usize, f: usize, r: usize) -> Answer {
        if w >= self.w || q >= self.r || f >= self.k || r >= self.r {
            return self.wrong_number(w, r, q);
        }
        let through = self.registers[w][q] as usize;
        if through == 0 {
            return (HOLDS_NONE, 0);
        }
        let place = through - 1;
        let old = self.values[place][f];
        let new = self.registers[w][r];
        if !self.changed[place][f] {
            self.changed[place][f] = true;
            self.olds[place][f] = old;
            self.logs[w].push(((place * K + f) as u16, old));
        }
        self.values[place][f] = new;
        self.snoop(w, new);
        (DONE, old)
    }

    #[inline]
    pub fn look(&mut self, w: usize, r: usize, e: usize) -> Answer {
        if w >= self.w || r >= self.r || e >= self.b {
            return self.wrong_number(w, r, r);
        }
        self.registers[w][r] = self.board[e];
        (DONE, self.board[e])
    }

    #[inline]
    pub fn post(&mut self, w: usize, e: usize, r: usize) -> Answer {
        if w >= self.w || r >= self.r || e >= self.b {
            return self.wrong_number(w, r, r);
        }
        let old = self.board[e];
        let new = self.registers[w][r];
        if !self.board_changed[e] {
            self.board_changed[e] = true;
            self.board_olds[e] = old;
            self.logs[w].push(((Self::BOARD + e) as u16, old));
        }
        self.board[e] = new;
        self.snoop(w, new);
        (DONE, old)
    }

    #[inline]
    fn snoop(&mut self, w: usize, new: u16) {
        if self.snoops[w] && new != 0 {
            self.held[new as usize - 1] = true;
        }
    }

    fn onward(&mut self, positions: usize) {
        self.position += 1;
        if self.position < positions {
            return;
        }
        self.position = 0;
        self.phase += 1;
        if (self.phase == 3 || self.phase == 5) && self.history.is_empty() {
            self.phase += 1;
        }
    }

    /// One collector step; the record freed, otherwise 0.
    #[inline]
    pub fn collect(&mut self) -> u16 {
        match self.phase {
            0 => self.phase = 1,
            1 => {
                self.snoops[self.position] = true;
                self.onward(self.w);
            }
            2 => self.take(),
            3 => {
                let link = self.history[self.position].0 as usize;
                match link.checked_sub(Self::BOARD) {
                    Some(e) => self.board_changed[e] = false,
                    None => self.changed[link / K][link % K] = false,
                }
                self.onward(self.history.len());
            }
            4 => self.scan(),
            5 => self.count(),
            _ => return self.reclaim(),
        }
        0
    }

    fn take(&mut self) {
        let w = self.position;
        self.history.append(&mut self.logs[w]);
        let maker = w as u8 + 1;
        for place in 0..self.n {
            let made = self.makers[place] == maker;
            self.candidates[place] |= made;
            self.makers[place] = if made { 0 } else { self.makers[place] };
        }
        self.onward(self.w);
    }

    fn scan(&mut self) {
        let w = self.position;
        self.snoops[w] = false;
        for held in &self.registers[w][..self.r] {
            if *held != 0 {
                self.held[*held as usize - 1] = true;
            }
        }
        self.onward(self.w);
    }

    fn count(&mut self) {
        let (link, old) = self.history[self.position];
        self.falls(old);
        let view = self.view(link as usize);
        if view != 0 {
            self.counts[view as usize - 1] += 1;
        }
        let entries = self.history.len();
        if self.position + 1 == entries {
            self.history.clear();
        }
        self.onward(entries);
    }

    fn view(&self, link: usize) -> u16 {
        let (changed, old, value) = match link.checked_sub(Self::BOARD) {
            Some(e) => (self.board_changed[e], self.board_olds[e], self.board[e]),
            None => {
                let (place, f) = (link / K, link % K);
                (self.changed[place][f], self.olds[place][f], self.values[place][f])
            }
        };
        if changed {
            old
        } else {
            value
        }
    }

    fn falls(&mut self, a: u16) {
        if a == 0 {
            return;
        }
        let place = a as usize - 1;
        self.counts[place] -= 1;
        if self.counts[place] == 0 {
            self.candidates[place] = true;
        }
    }

    fn is_changed(&self, place: usize) -> bool {
        self.changed[place].contains(&true)
    }

    /// Whether an unchanged link of it holds a record.
    fn has_child(&self, place: usize) -> bool {
        self.changed[place].iter().zip(&self.values[place]).any(|(changed, value)| !changed && *value != 0)
    }

    fn passes(&self, place: usize) -> bool {
        self.candidates[place]
            && self.counts[place] == 0
            && self.used[place]
            && !self.held[place]
            && (!self.is_changed(place) || self.has_child(place))
    }

    fn reclaim(&mut self) -> u16 {
        let Some(place) = (0..self.n).find(|place| self.passes(*place)) else {
            self.close();
            return 0;
        };
        let waits = self.is_changed(place);
        for f in 0..self.k {
            if !self.changed[place][f] {
                let value = self.values[place][f];
                self.values[place][f] = 0;
                self.falls(value);
            }
        }
        if waits {
            return 0;
        }
        self.used[place] = false;
        self.candidates[place] = false;
        place as u16 + 1
    }

    fn close(&mut self) {
        self.held = [false; N];
        for place in 0..self.n {
            self.candidates[place] &= self.counts[place] == 0;
        }
        self.closed = self.closed.wrapping_add(1);
        self.phase = 0;
    }
}
