//! How a pool of the second program lies in the tables that the library is lent, written from
//! "Lending tables" of the README, and what tables of the right lengths mean, whatever stands in
//! them. Marks are written out one number for each, and then packed.

use second::pool::{Entry, Link, Pool, Record, Sizes};
use second::random::Random;
use second::sound::{self, LIST_LENGTHS};
use yuyarisun::{Collector, Lent, Tables};

use crate::words::{packed, unpacked, unused_are_0};

/// Three clauses of "A sound pool" that the second program holds by its types.
pub const FLAGS: &str = "marks and flags 0 or 1";
pub const UNUSED: &str = "unused bits at 0";
pub const ZEROS: &str = "0 in every entry past a list's length";

pub const TABLES: [&str; 12] = [
    "used",
    "counts",
    "held",
    "candidates",
    "makers",
    "values",
    "changed",
    "registers",
    "snoops",
    "logs",
    "history",
    "lengths",
];

/// A table of either kind.
pub enum Table<'a> {
    Marks(&'a mut Vec<u64>),
    Numbers(&'a mut Vec<u16>),
}

impl Table<'_> {
    pub fn len(&self) -> usize {
        match self {
            Table::Marks(words) => words.len(),
            Table::Numbers(numbers) => numbers.len(),
        }
    }

    /// The word or the number at a place.
    pub fn at(&self, place: usize) -> Option<u64> {
        match self {
            Table::Marks(words) => words.get(place).copied(),
            Table::Numbers(numbers) => numbers.get(place).copied().map(u64::from),
        }
    }

    /// What there is more of it is 0.
    pub fn resize(&mut self, length: usize) {
        match self {
            Table::Marks(words) => words.resize(length, 0),
            Table::Numbers(numbers) => numbers.resize(length, 0),
        }
    }

    /// Anything in every place.
    pub fn spoil(&mut self, random: &mut Random) {
        match self {
            Table::Marks(words) => words.fill_with(|| random.number()),
            Table::Numbers(numbers) => numbers.fill_with(|| random.number() as u16),
        }
    }
}

/// The tables, in the order of `TABLES`.
pub fn each(t: &mut Tables) -> [Table<'_>; 12] {
    [
        Table::Marks(&mut t.used),
        Table::Numbers(&mut t.counts),
        Table::Marks(&mut t.held),
        Table::Marks(&mut t.candidates),
        Table::Numbers(&mut t.makers),
        Table::Numbers(&mut t.values),
        Table::Marks(&mut t.changed),
        Table::Numbers(&mut t.registers),
        Table::Numbers(&mut t.snoops),
        Table::Numbers(&mut t.logs),
        Table::Numbers(&mut t.history),
        Table::Numbers(&mut t.lengths),
    ]
}

/// One of them, by its place in `TABLES`.
pub fn nth(t: &mut Tables, which: usize) -> Table<'_> {
    each(t).into_iter().nth(which).expect("there are twelve tables")
}

/// The tables of marks: the name of each, its words, and how many marks they hold.
pub fn mark_tables(lent: &Lent) -> [(&'static str, &[u64], usize); 4] {
    let (t, n, s) = (&lent.tables, usize::from(lent.sizes.n), lent.sizes.links());
    [("used", &t.used, n), ("held", &t.held, n), ("candidates", &t.candidates, n), ("changed", &t.changed, s)]
}

pub fn sizes_of(sizes: Sizes) -> yuyarisun::Sizes {
    let Sizes { n, k, w, r, b } = sizes;
    yuyarisun::Sizes { n, k, w, r, b }
}

pub fn sizes_in(lent: &Lent) -> Sizes {
    let yuyarisun::Sizes { n, k, w, r, b } = lent.sizes;
    Sizes { n, k, w, r, b }
}

fn number_of(record: Option<Record>) -> u16 {
    record.map_or(0, |record| record.0)
}

/// "Link f of record a has the number (a-1) x K + f." Board entries are "numbered N x K and up"
/// (document 02, request 5).
pub fn link_number(sizes: Sizes, link: Link) -> u16 {
    match link {
        Link::Of { record, f } => (record.0 - 1) * sizes.k + f as u16,
        Link::Board { entry } => sizes.n * sizes.k + entry as u16,
    }
}

fn place(record: Record) -> usize {
    usize::from(record.0) - 1
}

/// The last made number stands behind the registers.
pub fn last_made_place(sizes: Sizes) -> usize {
    usize::from(sizes.w) * usize::from(sizes.r)
}

fn write_entries(sizes: Sizes, entries: &[Entry], room: &mut [u16]) {
    for (entry, pair) in entries.iter().zip(room.chunks_exact_mut(2)) {
        pair.copy_from_slice(&[link_number(sizes, entry.link), number_of(entry.old)]);
    }
}

/// A pool, written out.
pub fn written(pool: &Pool) -> Lent {
    let sizes = pool.sizes;
    let mut t = Tables::zeros(sizes_of(sizes));
    for (table, set) in
        [(&mut t.used, &pool.used), (&mut t.held, &pool.held), (&mut t.candidates, &pool.candidates)]
    {
        let mut marks = vec![0; sizes.n.into()];
        set.iter().for_each(|record| marks[place(*record)] = 1);
        *table = packed(&marks);
    }
    pool.counts.iter().for_each(|(record, count)| t.counts[place(*record)] = *count as u16);
    pool.makers.iter().for_each(|(record, worker)| t.makers[place(*record)] = *worker as u16 + 1);
    pool.values.iter().for_each(|(link, value)| t.values[usize::from(link_number(sizes, *link))] = value.0);
    let mut changed = vec![0; sizes.s()];
    pool.changed.iter().for_each(|link| changed[usize::from(link_number(sizes, *link))] = 1);
    t.changed = packed(&changed);
    let (s, r) = (sizes.s(), usize::from(sizes.r));
    for (w, worker) in pool.workers.iter().enumerate() {
        for (i, held) in worker.registers.iter().enumerate() {
            t.registers[w * r + i] = number_of(*held);
        }
        t.snoops[w] = worker.snoops.into();
        t.lengths[w] = worker.log.len() as u16;
        write_entries(sizes, &worker.log, &mut t.logs[w * 2 * s..(w + 1) * 2 * s]);
    }
    t.registers[last_made_place(sizes)] = number_of(pool.last_made);
    t.lengths[pool.workers.len()] = pool.history.len() as u16;
    write_entries(sizes, &pool.history, &mut t.history);
    let collector =
        Collector { phase: pool.phase.into(), position: pool.position as u16, closed: pool.closed };
    Lent { sizes: sizes_of(sizes), tables: t, collector }
}

/// What tables of the right lengths mean. A flag above 1 reads as on, unused bits are of no mark, a list is
/// at most as long as its room.
pub fn read(lent: &Lent) -> Pool {
    let sizes = sizes_in(lent);
    let t = &lent.tables;
    let records = |table: &[u16]| -> Vec<(Record, u16)> {
        sizes.records().zip(table.iter().copied()).filter(|(_, number)| *number != 0).collect()
    };
    let marked = |words: &[u64]| records(&unpacked(words)).into_iter().map(|(record, _)| record).collect();
    let links: Vec<Link> = sizes.links().collect();
    let of_links = |table: &[u16]| -> Vec<(Link, u16)> {
        links.iter().copied().zip(table.iter().copied()).filter(|(_, number)| *number != 0).collect()
    };
    let mut pool = Pool::fresh(sizes);
    pool.used = marked(&t.used);
    pool.held = marked(&t.held);
    pool.candidates = marked(&t.candidates);
    pool.counts = records(&t.counts).into_iter().map(|(record, count)| (record, count.into())).collect();
    pool.makers =
        records(&t.makers).into_iter().map(|(record, maker)| (record, usize::from(maker) - 1)).collect();
    pool.values = of_links(&t.values).into_iter().map(|(link, value)| (link, Record(value))).collect();
    pool.changed = of_links(&unpacked(&t.changed)).into_iter().map(|(link, _)| link).collect();
    let (s, r) = (sizes.s(), usize::from(sizes.r));
    for (w, worker) in pool.workers.iter_mut().enumerate() {
        worker.registers = t.registers[w * r..(w + 1) * r].iter().map(|number| record_of(*number)).collect();
        worker.snoops = t.snoops[w] != 0;
        worker.log = read_entries(sizes, &t.logs[w * 2 * s..(w + 1) * 2 * s], t.lengths[w]);
    }
    pool.last_made = record_of(t.registers[last_made_place(sizes)]);
    pool.history = read_entries(sizes, &t.history, t.lengths[usize::from(sizes.w)]);
    pool.phase = u8::try_from(lent.collector.phase).unwrap_or(u8::MAX);
    pool.position = lent.collector.position.into();
    pool.closed = lent.collector.closed;
    pool
}

fn record_of(number: u16) -> Option<Record> {
    (number != 0).then_some(Record(number))
}

fn read_entries(sizes: Sizes, room: &[u16], length: u16) -> Vec<Entry> {
    let entry = |pair: &[u16]| Entry { link: link_of(sizes, pair[0]), old: record_of(pair[1]) };
    room.chunks_exact(2).take(length.into()).map(entry).collect()
}

/// The link of a number; of one past S it is a board entry that is not there.
pub fn link_of(sizes: Sizes, number: u16) -> Link {
    match number.checked_sub(sizes.n * sizes.k) {
        Some(entry) => Link::Board { entry: entry.into() },
        None => Link::Of { record: Record(number / sizes.k + 1), f: usize::from(number % sizes.k) },
    }
}

/// The clauses of "A sound pool" that tables of the right lengths break.
pub fn broken(lent: &Lent) -> Vec<&'static str> {
    let t = &lent.tables;
    let s = lent.sizes.links();
    let lists = t.logs.chunks_exact(2 * s).chain([&t.history[..]]);
    let past = |(room, length): (&[u16], &u16)| {
        room.iter().skip(2 * usize::from(*length)).all(|number| *number == 0)
    };
    let clauses = [
        (t.snoops.iter().all(|flag| *flag <= 1), FLAGS),
        (mark_tables(lent).into_iter().all(|(_, words, marks)| unused_are_0(words, marks)), UNUSED),
        (lists.zip(&t.lengths).all(past), ZEROS),
        (t.lengths.iter().all(|length| usize::from(*length) <= s), LIST_LENGTHS),
    ];
    let of_tables = clauses.into_iter().filter(|(holds, _)| !holds).map(|(_, clause)| clause);
    of_tables.chain(sound::broken(&read(lent))).collect()
}
