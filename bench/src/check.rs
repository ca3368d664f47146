//! "A sound pool" of document 01 on lent tables, every clause, as one would write it for speed and
//! without proofs; and reading the same tables once.
//!
//! What was seen of a link it keeps in bits, as the changed marks are, which it compares by words. A link
//! that stands twice it finds by counting (then fewer links were seen than there are entries), and it
//! tallies four links in a turn.

use yuyarisun::{Lent, Tables};

/// No fewer than 8,208, and a multiple of 64.
const LINKS: usize = 8256;
const WORDS: usize = LINKS / 64;
const RECORDS: usize = 1025;

/// Numbers of one table or-ed together: 0 where each is 0, at most 1 where each is.
fn any(numbers: &[u16]) -> u16 {
    numbers.iter().fold(0, |all, number| all | number)
}

fn largest(numbers: &[u16]) -> u16 {
    numbers.iter().fold(0, |most, number| most.max(*number))
}

/// The same of words.
fn any_word(words: &[u64]) -> u64 {
    words.iter().fold(0, |all, word| all | word)
}

/// Reads every word and every number of the tables once.
pub fn read(tables: &Tables) -> u64 {
    let Tables { used, held, candidates, changed, .. } = tables;
    let Tables { counts, makers, values, registers, snoops, logs, history, lengths, .. } = tables;
    let numbers = [counts, makers, values, registers, snoops, logs, history, lengths];
    let numbers = numbers.into_iter().fold(0, |all, table| all | any(table));
    let words = [used, held, candidates, changed];
    words.into_iter().fold(numbers.into(), |all, table| all | any_word(table))
}

/// So many marks in these words, and no unused bit on.
fn packed(words: &[u64], marks: usize) -> bool {
    let rest = marks % 64;
    rest == 0 || words[marks / 64] >> rest == 0
}

fn phase_fits(pool: &Lent, entries: u16) -> bool {
    let (position, w) = (pool.collector.position, pool.sizes.w);
    match pool.collector.phase {
        0 | 6 => position == 0 && entries == 0,
        1 => position < w && entries == 0,
        2 | 4 => position < w,
        3 | 5 => position < entries,
        _ => false,
    }
}

/// What was seen of each link: it stands among the logs and the uncleared history, it stands in the
/// history; and the record that it counts for.
struct Seen {
    standing: [u64; WORDS],
    in_history: [u64; WORDS],
    counts_for: [u16; LINKS],
}

fn put_on(words: &mut [u64; WORDS], link: usize) {
    words[link / 64] |= 1 << (link % 64);
}

/// The links of entries, and what each says of its link; whether all are in range.
fn entries(list: &[u16], pool: &Lent, mut say: impl FnMut(usize, u16)) -> bool {
    let (links, records) = (pool.sizes.links() as u16, pool.sizes.n);
    let mut ok = true;
    for entry in list.chunks_exact(2) {
        let (link, old) = (entry[0], entry[1]);
        ok &= (link < links) & (old <= records);
        say((link as usize).min(LINKS - 1), old);
    }
    ok
}

fn logs(seen: &mut Seen, pool: &Lent) -> bool {
    let mut ok = true;
    for (log, length) in pool.tables.logs.chunks_exact(2 * pool.sizes.links()).zip(&pool.tables.lengths) {
        let (log, past) = log.split_at(2 * *length as usize);
        ok &= any(past) == 0;
        ok &= entries(log, pool, |link, old| {
            put_on(&mut seen.standing, link);
            seen.counts_for[link] = old;
        });
    }
    ok
}

/// The history: up to `counted` its entries are counted, and from `cleared` on they are uncleared.
fn history(seen: &mut Seen, pool: &Lent, counted: usize, cleared: usize, length: usize) -> bool {
    let list = &pool.tables.history;
    let mut ok = any(&list[2 * length..]) == 0;
    ok &= entries(&list[..2 * counted], pool, |link, _| put_on(&mut seen.in_history, link));
    ok &= entries(&list[2 * counted..2 * cleared], pool, |link, old| {
        put_on(&mut seen.in_history, link);
        seen.counts_for[link] = old;
    });
    ok &= entries(&list[2 * cleared..2 * length], pool, |link, old| {
        put_on(&mut seen.in_history, link);
        put_on(&mut seen.standing, link);
        seen.counts_for[link] = old;
    });
    ok
}

/// How many marks are on.
fn on(marks: &[u64; WORDS]) -> usize {
    marks.iter().map(|word| word.count_ones() as usize).sum()
}

fn counts_fit(values: &[u16], counts: &[u16]) -> bool {
    let mut tally = [[0u16; RECORDS]; 4];
    let fours = values.chunks_exact(4);
    for value in fours.remainder() {
        tally[0][*value as usize] += 1;
    }
    for four in fours {
        tally[0][four[0] as usize] += 1;
        tally[1][four[1] as usize] += 1;
        tally[2][four[2] as usize] += 1;
        tally[3][four[3] as usize] += 1;
    }
    let [a, b, c, d] = &tally;
    let tallies = a[1..].iter().zip(&b[1..]).zip(&c[1..]).zip(&d[1..]);
    let wrong =
        counts.iter().zip(tallies).fold(0, |all, (count, (((a, b), c), d))| all | ((a + b + c + d) ^ count));
    wrong == 0
}

pub fn sound(pool: &Lent) -> bool {
    let (sizes, tables, links) = (pool.sizes, &pool.tables, pool.sizes.links());
    let lists = sizes.w as usize;
    let length = tables.lengths[lists];
    if largest(&tables.lengths) as usize > links || !phase_fits(pool, length) {
        return false;
    }
    let records = usize::from(sizes.n);
    if any(&tables.snoops) > 1
        || !packed(&tables.used, records)
        || !packed(&tables.held, records)
        || !packed(&tables.candidates, records)
        || !packed(&tables.changed, links)
        || largest(&tables.makers) > sizes.w
    {
        return false;
    }
    // The last made number stands behind the registers.
    if largest(&tables.registers) > sizes.n || largest(&tables.values) > sizes.n {
        return false;
    }
    let mut seen = Seen { standing: [0; WORDS], in_history: [0; WORDS], counts_for: [0; LINKS] };
    seen.counts_for[..links].copy_from_slice(&tables.values);
    let (counted, cleared) = match pool.collector.phase {
        2 => (0, 0),
        3 => (0, pool.collector.position),
        5 => (pool.collector.position, length),
        _ => (0, length),
    };
    if !logs(&mut seen, pool) || !history(&mut seen, pool, counted.into(), cleared.into(), length.into()) {
        return false;
    }
    let entered =
        tables.lengths[..lists].iter().map(|n| *n as usize).sum::<usize>() + (length - cleared) as usize;
    let mismatched =
        tables.changed.iter().zip(&seen.standing).fold(0, |all, (marks, seen)| all | (marks ^ seen));
    mismatched == 0
        && on(&seen.standing) == entered
        && on(&seen.in_history) == length as usize
        && counts_fit(&seen.counts_for[..links], &tables.counts)
}
