//! What a pool consists of, in the open: its sizes, its twelve tables and the collector's record.

/// The sizes of a pool. There are S = N x K + B links: those of the records, and the board entries.
#[derive(Clone, Copy, Debug, PartialEq, Eq, Hash)]
pub struct Sizes {
    /// N, how many records: 1..1024.
    pub n: u16,
    /// K, how many links each record has: 1..8.
    pub k: u16,
    /// W, how many workers: 1..8.
    pub w: u16,
    /// R, how many registers each worker has: 1..16.
    pub r: u16,
    /// B, how many entries the board has, through which workers pass records: 0..16.
    pub b: u16,
}

impl Sizes {
    /// The largest sizes.
    pub const LARGEST: Sizes = Sizes { n: 1024, k: 8, w: 8, r: 16, b: 16 };

    /// Whether each size is in its range.
    pub fn in_range(self) -> bool {
        let most = Sizes::LARGEST;
        let pairs = [(self.n, most.n), (self.k, most.k), (self.w, most.w), (self.r, most.r)];
        pairs.into_iter().all(|(size, largest)| (1..=largest).contains(&size)) && self.b <= most.b
    }

    /// The sizes that a trace begins with, in range or not; `None` if no whole sizes field stands
    /// there. A field of length 8 says that there is no board, one of length 10 has B at its end.
    ///
    /// ```
    /// use yuyarisun::Sizes;
    ///
    /// let trace = [1, 0, 10, 4, 0, 0, 8, 0, 8, 0, 16, 0, 16, 0x7F, 0, 4, 0, 0, 0, 0];
    /// assert_eq!(Sizes::of_trace(&trace), Some(Sizes::LARGEST));
    /// assert_eq!(Sizes::of_trace(&trace[..12]), None);
    /// let without = [1, 0, 8, 4, 0, 0, 8, 0, 8, 0, 16, 0x7F, 0, 4, 0, 0, 0, 0];
    /// assert_eq!(Sizes::of_trace(&without), Some(Sizes { b: 0, ..Sizes::LARGEST }));
    /// ```
    pub fn of_trace(bytes: &[u8]) -> Option<Sizes> {
        let &[0x01, 0, length @ (8 | 10), ref behind @ ..] = bytes else { return None };
        let payload = behind.get(..length.into())?;
        let mut sizes = payload.chunks_exact(2).map(|two| u16::from_be_bytes([two[0], two[1]]));
        let mut next = || sizes.next().unwrap_or(0);
        Some(Sizes { n: next(), k: next(), w: next(), r: next(), b: next() })
    }

    /// S, how many links there are in all, the board entries among them.
    pub fn links(self) -> usize {
        usize::from(self.n) * usize::from(self.k) + usize::from(self.b)
    }

    /// How many words the used marks take, and so do the held and the candidate marks: (N + 63) / 64.
    pub fn record_words(self) -> usize {
        usize::from(self.n).div_ceil(MARKS_IN_A_WORD)
    }

    /// How many words the changed marks take: (S + 63) / 64.
    pub fn link_words(self) -> usize {
        self.links().div_ceil(MARKS_IN_A_WORD)
    }
}

/// How many marks a word has.
const MARKS_IN_A_WORD: usize = 64;

/// Whether the mark at a place of a table of marks is on: that of record a is at a - 1, that of link l
/// at l. The lowest number has the lowest bit.
///
/// Panics where the words have no such place.
///
/// ```
/// use yuyarisun::{mark_at, Pool, Sizes};
///
/// let mut pool = Pool::new(Sizes { n: 65, k: 1, w: 1, r: 1, b: 0 })?;
/// let made = (0..65).map(|_| pool.make(0, 0)).last().expect("65 records are made")?;
/// assert_eq!(pool.tables().used, [u64::MAX, 1]);
/// assert!(mark_at(&pool.tables().used, usize::from(made.number()) - 1));
/// # Ok::<(), yuyarisun::Refusal>(())
/// ```
pub fn mark_at(marks: &[u64], place: usize) -> bool {
    marks[place / MARKS_IN_A_WORD] >> (place % MARKS_IN_A_WORD) & 1 == 1
}

/// The twelve tables of a pool, in which it lies as the section "Lending tables" of the README
/// says. Their lengths have to be exact.
///
/// Four of them have marks in words of 64 bits, the lowest number in the lowest bit ([`mark_at`]). The
/// bits of the last word behind the last record's or the last link's are 0: with one of them on the
/// pool is not sound.
#[derive(Clone, Debug, Default, PartialEq, Eq)]
pub struct Tables {
    /// (N + 63) / 64 words: the mark of record a at a - 1, on if it is used and off if it is free.
    pub used: Vec<u64>,
    /// N: of record a at a - 1, its count.
    pub counts: Vec<u16>,
    /// (N + 63) / 64 words: of record a at a - 1, its held mark.
    pub held: Vec<u64>,
    /// (N + 63) / 64 words: of record a at a - 1, its candidate mark.
    pub candidates: Vec<u64>,
    /// N: of record a at a - 1, the worker that made it + 1, or 0.
    pub makers: Vec<u16>,
    /// S: of link l at l, the record that it leads to, or 0. Link f of record a has the number (a -
    /// 1) x K + f, and board entry e the number N x K + e.
    pub values: Vec<u16>,
    /// (S + 63) / 64 words: of link l at l, its changed mark.
    pub changed: Vec<u64>,
    /// W x R + 1: register r of worker w at w x R + r, and at W x R the last made number.
    pub registers: Vec<u16>,
    /// W: each worker's snoop flag.
    pub snoops: Vec<u16>,
    /// W x 2S: entry i of worker w at w x 2S + 2i, a link and then the value that was overwritten
    /// first.
    pub logs: Vec<u16>,
    /// 2S: the entries taken from the logs, in the same form.
    pub history: Vec<u16>,
    /// W + 1: how many entries each log has, then how many the history has.
    pub lengths: Vec<u16>,
}

impl Tables {
    /// Tables of the right lengths with every mark off and every number 0: a fresh pool, where the
    /// sizes are in range.
    /// Sizes far out of range may ask for more memory than there is.
    pub fn zeros(sizes: Sizes) -> Tables {
        let [n, w, r] = [sizes.n, sizes.w, sizes.r].map(usize::from);
        let s = sizes.links();
        Tables {
            used: vec![0; sizes.record_words()],
            counts: vec![0; n],
            held: vec![0; sizes.record_words()],
            candidates: vec![0; sizes.record_words()],
            makers: vec![0; n],
            values: vec![0; s],
            changed: vec![0; sizes.link_words()],
            registers: vec![0; w * r + 1],
            snoops: vec![0; w],
            logs: vec![0; w * 2 * s],
            history: vec![0; 2 * s],
            lengths: vec![0; w + 1],
        }
    }

    /// Whether every table has the length that these sizes ask for.
    pub fn are_exact(&self, sizes: Sizes) -> bool {
        let [n, w, r] = [sizes.n, sizes.w, sizes.r].map(usize::from);
        let s = sizes.links();
        let by_record = [&self.used, &self.held, &self.candidates];
        by_record.into_iter().all(|marks| marks.len() == sizes.record_words())
            && self.changed.len() == sizes.link_words()
            && self.counts.len() == n
            && self.makers.len() == n
            && self.values.len() == s
            && self.registers.len() == w * r + 1
            && self.snoops.len() == w
            && self.logs.len() == w * 2 * s
            && self.history.len() == 2 * s
            && self.lengths.len() == w + 1
    }
}

/// The collector's own record, which each collector step moves on.
#[derive(Clone, Copy, Debug, Default, PartialEq, Eq, Hash)]
pub struct Collector {
    /// 0..6; between two cycles it is 0.
    pub phase: u16,
    /// Which worker or which history entry is next, in the phases that go one by one.
    pub position: u16,
    /// How many cycles have closed; after 65,535 it goes on at 0.
    pub closed: u16,
}
