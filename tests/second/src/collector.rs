//! "Collector steps" of document 01, with what document 02's request 8 makes of phase 6.

use crate::pool::{Link, Pool, Record};

/// "One collect event does one of these; the answer is the record freed, otherwise 0."
pub fn collect(pool: &mut Pool) -> Option<Record> {
    match pool.phase {
        0 => open(pool),
        1 => start_snooping(pool),
        2 => take_log(pool),
        3 => clear_mark(pool),
        4 => scan_registers(pool),
        5 => count_entry(pool),
        _ => return reclaim_or_close(pool),
    }
    None
}

/// "Phase 0: open the cycle: phase 1, position 0."
fn open(pool: &mut Pool) {
    pool.phase = 1;
    pool.position = 0;
}

/// "Phase 1: snoop flag on for the worker at the position. After the last worker, phase 2."
fn start_snooping(pool: &mut Pool) {
    let w = pool.position;
    pool.workers[w].snoops = true;
    move_on(pool, pool.workers.len(), 2);
}

/// "Phase 2: that worker's log is added at the end of the history and emptied; every record of
/// which it is maker becomes a candidate with maker 0. After the last, phase 3."
fn take_log(pool: &mut Pool) {
    let w = pool.position;
    let log = std::mem::take(&mut pool.workers[w].log);
    pool.history.extend(log);
    let made = pool.makers.iter().filter(|(_, maker)| **maker == w);
    pool.candidates.extend(made.map(|(record, _)| *record));
    pool.makers.retain(|_, maker| *maker != w);
    let next = skip_if_history_empty(pool, 3, 4);
    move_on(pool, pool.workers.len(), next);
}

/// "Phase 3: changed mark off for the link of the history entry at the position. After the last,
/// phase 4."
fn clear_mark(pool: &mut Pool) {
    let link = pool.history[pool.position].link;
    pool.changed.remove(&link);
    move_on(pool, pool.history.len(), 4);
}

/// "Phase 4: that worker's snoop flag off; every record in its registers is held. After the last,
/// phase 5."
fn scan_registers(pool: &mut Pool) {
    let worker = &mut pool.workers[pool.position];
    worker.snoops = false;
    pool.held.extend(worker.registers.iter().flatten());
    let next = skip_if_history_empty(pool, 5, 6);
    move_on(pool, pool.workers.len(), next);
}

/// "Phase 5: for the entry (link, old): first the count of old falls by 1, and at 0 it becomes a
/// candidate; then the count of the link's view value rises by 1. After the last, the history is
/// emptied: phase 6."
fn count_entry(pool: &mut Pool) {
    let entry = pool.history[pool.position];
    fall(pool, entry.old);
    let view = view_value(pool, entry.link);
    rise(pool, view);
    move_on(pool, pool.history.len(), 6);
    if pool.phase == 6 {
        pool.history.clear();
    }
}

/// "Phase 6 now takes the lowest [record that may be taken]" (document 02, request 8). Where all its
/// changed marks are off "it's freed as before", and is the answer. "In the second case its unchanged
/// links are emptied ..; the record stays used and a candidate, and the answer is 0." "Phase 6 stays. If
/// none passes: [close]."
fn reclaim_or_close(pool: &mut Pool) -> Option<Record> {
    let taken = pool.sizes.records().find(|record| may_be_taken(pool, *record));
    match taken {
        Some(record) if has_a_changed_link(pool, record) => {
            empty_the_unchanged_links(pool, record);
            return None;
        }
        Some(record) => free(pool, record),
        None => close(pool),
    }
    taken
}

/// "used candidate, count 0, not held, that either has all changed marks off .. or has a changed link and
/// also an unchanged link that holds a record."
fn may_be_taken(pool: &Pool, record: Record) -> bool {
    pool.used.contains(&record)
        && pool.candidates.contains(&record)
        && pool.count(record) == 0
        && !pool.held.contains(&record)
        && (!has_a_changed_link(pool, record) || has_a_child(pool, record))
}

/// "has a changed link."
fn has_a_changed_link(pool: &Pool, record: Record) -> bool {
    pool.sizes.links_of(record).any(|link| pool.changed.contains(&link))
}

/// "an unchanged link that holds a record."
fn has_a_child(pool: &Pool, record: Record) -> bool {
    pool.sizes.links_of(record).any(|link| !pool.changed.contains(&link) && pool.value(link).is_some())
}

/// "Freeing: links from 0 up, [each emptied]; then the record is free and no candidate."
fn free(pool: &mut Pool, record: Record) {
    for link in pool.sizes.links_of(record) {
        empty(pool, link);
    }
    pool.used.remove(&record);
    pool.candidates.remove(&record);
}

/// "its unchanged links are emptied as in freeing."
fn empty_the_unchanged_links(pool: &mut Pool, record: Record) {
    for link in pool.sizes.links_of(record) {
        if !pool.changed.contains(&link) {
            empty(pool, link);
        }
    }
}

/// "the count of the value falls by 1 and at 0 that record becomes a candidate, the link becomes none."
fn empty(pool: &mut Pool, link: Link) {
    fall(pool, pool.value(link));
    pool.set_value(link, None);
}

/// "If none passes: all held marks off, candidate marks off where the count is not 0,
/// closed-cycle number up by one, phase 0." "After 65,535 it goes on at 0."
fn close(pool: &mut Pool) {
    pool.held.clear();
    let counts = &pool.counts;
    pool.candidates.retain(|record| counts.get(record).is_none_or(|count| *count == 0));
    pool.closed = pool.closed.wrapping_add(1);
    pool.phase = 0;
}

/// "The phase changes within the step that did the last position, and the position returns to 0."
fn move_on(pool: &mut Pool, positions: usize, next: u8) {
    pool.position += 1;
    if pool.position >= positions {
        pool.position = 0;
        pool.phase = next;
    }
}

/// "Phases 3 and 5 are skipped when the history is empty."
fn skip_if_history_empty(pool: &Pool, next: u8, after: u8) -> u8 {
    if pool.history.is_empty() {
        after
    } else {
        next
    }
}

/// "the count of [a record] falls by 1 and at 0 that record becomes a candidate." "None has no
/// count."
fn fall(pool: &mut Pool, record: Option<Record>) {
    let Some(record) = record else { return };
    let count = pool.counts.entry(record).or_insert(0);
    *count -= 1;
    if *count == 0 {
        pool.candidates.insert(record);
    }
}

/// "the count of [a record] rises by 1." "None has no count."
fn rise(pool: &mut Pool, record: Option<Record>) {
    if let Some(record) = record {
        *pool.counts.entry(record).or_insert(0) += 1;
    }
}

/// "The view value of a link is its value if its changed mark is off, else the old value in the
/// one log entry for it."
fn view_value(pool: &Pool, link: Link) -> Option<Record> {
    if !pool.changed.contains(&link) {
        return pool.value(link);
    }
    let mut logged = pool.workers.iter().flat_map(|worker| &worker.log);
    logged.find(|entry| entry.link == link).and_then(|entry| entry.old)
}
