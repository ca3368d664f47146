//! The safe type as its users see it: document 01's sample runs, the board, refusals, and tables that
//! come from elsewhere.

use std::collections::BTreeSet;
use std::error::Error;

use yuyarisun::{mark_at, Collector, Event, Lent, Pool, Record, Refusal, Sizes, Tables};

fn pool(n: u16, k: u16, w: u16, r: u16) -> Pool {
    Pool::new(Sizes { n, k, w, r, b: 0 }).expect("the sizes are in range")
}

fn numbers(records: impl IntoIterator<Item = Record>) -> Vec<u16> {
    records.into_iter().map(Record::number).collect()
}

/// Steps until the cycle that is open, or the next one, has closed; what was freed.
fn cycle(pool: &mut Pool) -> Vec<u16> {
    let closed = pool.collector().closed;
    let mut freed = Vec::new();
    while pool.collector().closed == closed {
        freed.extend(pool.collect());
    }
    numbers(freed)
}

#[test]
fn the_whole_case() {
    let mut pool = pool(2, 1, 1, 1);
    assert_eq!(pool.make(0, 0).map(Record::number), Ok(1));
    assert_eq!(pool.drop_register(0, 0), Ok(()));
    let steps: Vec<u16> = (0..6).map(|_| pool.collect().map_or(0, Record::number)).collect();
    assert_eq!(steps, [0, 0, 0, 0, 1, 0]);
    assert_eq!(pool.make(0, 0).map(Record::number), Ok(2));
    assert_eq!((pool.free_records(), pool.collector().closed), (1, 1));
}

#[test]
fn every_record_is_made_and_then_none_is_free() {
    let mut pool = Pool::new(Sizes::LARGEST).unwrap();
    for number in 1..=1024 {
        assert_eq!(pool.make(7, 15).map(Record::number), Ok(number));
    }
    assert_eq!(pool.make(7, 15), Err(Refusal::NoneFree));
    assert_eq!(pool.free_records(), 0);
}

/// Chain 1 to 2 to 3, whose head is stored to after the log was taken and dropped before the scan: it waits.
/// The step that empties its link to 2 frees none, and closes no cycle.
#[test]
fn a_waiting_record_gives_up_its_child() -> Result<(), Refusal> {
    let mut pool = pool(3, 2, 1, 3);
    for r in 0..3 {
        pool.make(0, r)?;
    }
    pool.store(0, 0, 0, 1)?;
    pool.store(0, 1, 0, 2)?;
    pool.drop_register(0, 1)?;
    pool.drop_register(0, 2)?;
    while pool.collector().phase < 4 {
        assert_eq!(pool.collect(), None);
    }
    pool.store(0, 0, 1, 1)?;
    pool.drop_register(0, 0)?;
    while pool.collector().phase < 6 {
        assert_eq!(pool.collect(), None);
    }
    assert_eq!(pool.tables().values, [2, 0, 3, 0, 0, 0]);
    assert_eq!(pool.collect(), None);
    assert_eq!(pool.tables().values, [0, 0, 3, 0, 0, 0]);
    assert_eq!((pool.collector().phase, pool.collector().closed, pool.free_records()), (6, 0, 0));
    assert_eq!(cycle(&mut pool), [2, 3]);
    assert_eq!(cycle(&mut pool), [1]);
    Ok(())
}

/// Each record made is lost and freed before the next is made; then two stay, and one comes straight
/// back.
#[test]
fn makes_go_round() -> Result<(), Refusal> {
    let mut pool = pool(3, 1, 1, 3);
    let mut made = Vec::new();
    for _ in 0..4 {
        made.push(pool.make(0, 0)?);
        pool.drop_register(0, 0)?;
        cycle(&mut pool);
    }
    assert_eq!(numbers(made), [1, 2, 3, 1]);
    assert_eq!(pool.tables().registers, [0, 0, 0, 1]);
    assert_eq!((pool.make(0, 0)?.number(), pool.make(0, 1)?.number(), pool.make(0, 2)?.number()), (2, 3, 1));
    assert_eq!(pool.make(0, 2), Err(Refusal::NoneFree));
    pool.drop_register(0, 2)?;
    assert_eq!(cycle(&mut pool), [1]);
    assert_eq!(pool.make(0, 2)?.number(), 1);
    Ok(())
}

#[test]
fn the_last_made_number_is_a_records() -> Result<(), Refusal> {
    let sizes = Sizes { n: 3, k: 1, w: 1, r: 1, b: 0 };
    let mut tables = Tables::zeros(sizes);
    tables.registers[1] = 3;
    let mut pool = Pool::from_tables(sizes, tables.clone(), Collector::default())?;
    assert_eq!(pool.make(0, 0)?.number(), 1);
    tables.registers[1] = 4;
    assert_eq!(Pool::from_tables(sizes, tables, Collector::default()), Err(Refusal::NotSound));
    Ok(())
}

#[test]
fn chains_are_freed_from_their_heads() -> Result<(), Refusal> {
    let mut up = pool(3, 1, 1, 3);
    (0..3).try_for_each(|r| up.make(0, r).map(|_| ()))?;
    up.store(0, 0, 0, 1)?;
    up.store(0, 1, 0, 2)?;
    (0..3).try_for_each(|r| up.drop_register(0, r))?;
    assert_eq!(cycle(&mut up), [1, 2, 3]);

    let mut down = pool(3, 1, 1, 3);
    (0..3).try_for_each(|r| down.make(0, r).map(|_| ()))?;
    down.store(0, 2, 0, 1)?;
    down.store(0, 1, 0, 0)?;
    (0..3).try_for_each(|r| down.drop_register(0, r))?;
    assert_eq!(cycle(&mut down), [3, 2, 1]);
    Ok(())
}

#[test]
fn a_record_linked_to_itself_stays_used() -> Result<(), Refusal> {
    let mut pool = pool(2, 1, 1, 1);
    pool.make(0, 0)?;
    pool.store(0, 0, 0, 0)?;
    pool.drop_register(0, 0)?;
    assert_eq!((cycle(&mut pool), cycle(&mut pool), pool.free_records()), (vec![], vec![], 1));
    Ok(())
}

/// Worker 0 posts a record and drops it, worker 1 takes it off the board and keeps it, while cycles go
/// by; once worker 1 drops it too, it is freed.
#[test]
fn a_record_is_passed_through_the_board() -> Result<(), Refusal> {
    let mut pool = Pool::new(Sizes { n: 2, k: 1, w: 2, r: 2, b: 2 })?;
    let frame = pool.make(0, 0)?;
    assert_eq!(pool.post(0, 1, 0)?, None);
    pool.drop_register(0, 0)?;
    assert_eq!((cycle(&mut pool), cycle(&mut pool)), (vec![], vec![]));
    assert_eq!((pool.look(1, 0, 0)?, pool.look(1, 0, 1)?), (None, Some(frame)));
    assert_eq!(pool.post(1, 1, 1)?, Some(frame));
    assert_eq!((cycle(&mut pool), cycle(&mut pool)), (vec![], vec![]));
    pool.drop_register(1, 0)?;
    assert_eq!(cycle(&mut pool), [frame.number()]);
    Ok(())
}

/// The entries stand behind the records' links, in every table that has a place for each link.
#[test]
fn a_board_entry_is_a_link() -> Result<(), Refusal> {
    let mut pool = Pool::new(Sizes { n: 2, k: 2, w: 1, r: 1, b: 3 })?;
    assert_eq!(pool.sizes().links(), 7);
    pool.make(0, 0)?;
    pool.post(0, 2, 0)?;
    pool.post(0, 2, 0)?;
    let tables = pool.tables();
    assert_eq!((&tables.values[..], &tables.changed[..]), (&[0, 0, 0, 0, 0, 0, 1][..], &[1 << 6][..]));
    assert!((0..7).all(|link| mark_at(&tables.changed, link) == (link == 6)));
    assert_eq!((&tables.logs[..3], &tables.lengths[..]), (&[6, 0, 0][..], &[1, 0][..]));
    assert_eq!((tables.logs.len(), tables.history.len()), (14, 14));
    Ok(())
}

#[test]
fn a_board_entry_that_is_not_there_is_refused() {
    let mut pool = Pool::new(Sizes { n: 1, k: 1, w: 1, r: 1, b: 2 }).unwrap();
    let before = pool.clone();
    assert_eq!(
        (pool.look(0, 0, 2), pool.post(0, 255, 0)),
        (Err(Refusal::NoSuchLink), Err(Refusal::NoSuchLink))
    );
    assert_eq!(
        (pool.look(0, 1, 2), pool.post(0, 2, 1)),
        (Err(Refusal::NoSuchRegister), Err(Refusal::NoSuchRegister))
    );
    assert_eq!(
        (pool.look(1, 1, 2), pool.post(1, 2, 1)),
        (Err(Refusal::NoSuchWorker), Err(Refusal::NoSuchWorker))
    );
    assert_eq!(pool, before);
    let mut without = self::pool(1, 1, 1, 1);
    assert_eq!(
        (without.look(0, 0, 0), without.post(0, 0, 0)),
        (Err(Refusal::NoSuchLink), Err(Refusal::NoSuchLink))
    );
}

#[test]
fn a_refused_event_changes_nothing() {
    let mut pool = pool(2, 1, 1, 2);
    pool.make(0, 0).unwrap();
    let before = pool.clone();
    assert_eq!(pool.make(1, 0), Err(Refusal::NoSuchWorker));
    assert_eq!(pool.move_register(0, 2, 0), Err(Refusal::NoSuchRegister));
    assert_eq!(pool.drop_register(0, 2), Err(Refusal::NoSuchRegister));
    assert_eq!(pool.load(0, 0, 0, 1), Err(Refusal::NoSuchLink));
    assert_eq!(pool.load(0, 0, 1, 0), Err(Refusal::HoldsNone));
    assert_eq!(pool.store(0, 1, 0, 0), Err(Refusal::HoldsNone));
    assert_eq!(pool, before);
}

#[test]
fn of_two_wrong_numbers_the_first_is_told() {
    let mut pool = pool(2, 1, 1, 2);
    assert_eq!(pool.drop_register(1, 2), Err(Refusal::NoSuchWorker));
    assert_eq!(pool.load(1, 0, 0, 1), Err(Refusal::NoSuchWorker));
    assert_eq!(pool.store(0, 0, 1, 255), Err(Refusal::NoSuchRegister));
    assert_eq!(pool.store(0, 1, 0, 255), Err(Refusal::NoSuchRegister));
    assert_eq!(pool.store(0, 1, 255, 0), Err(Refusal::NoSuchLink));
}

#[test]
fn sizes_out_of_range_are_refused_before_anything_is_allocated() {
    for wrong in [
        Sizes { n: 0, ..Sizes::LARGEST },
        Sizes { n: 1025, ..Sizes::LARGEST },
        Sizes { k: 9, ..Sizes::LARGEST },
        Sizes { w: 9, ..Sizes::LARGEST },
        Sizes { r: 17, ..Sizes::LARGEST },
        Sizes { b: 17, ..Sizes::LARGEST },
        Sizes { n: u16::MAX, k: u16::MAX, w: u16::MAX, r: u16::MAX, b: u16::MAX },
    ] {
        assert!(!wrong.in_range());
        assert_eq!(Pool::new(wrong), Err(Refusal::WrongSize));
        assert_eq!(
            Pool::from_tables(wrong, Tables::default(), Collector::default()),
            Err(Refusal::WrongSize)
        );
    }
}

/// A pool put away amid a cycle and taken up again goes on as if nothing had been.
#[test]
fn tables_are_put_away_and_taken_up_again() -> Result<(), Refusal> {
    let mut pool = pool(4, 2, 2, 2);
    pool.make(0, 0)?;
    pool.make(0, 1)?;
    pool.store(0, 0, 1, 1)?;
    (0..4).for_each(|_| assert_eq!(pool.collect(), None));
    pool.drop_register(0, 0)?;
    let sizes = pool.sizes();
    let (tables, collector) = pool.clone().into_tables();
    let mut again = Pool::from_tables(sizes, tables.clone(), collector)?;
    assert_eq!(again, pool);
    assert_eq!((cycle(&mut again), cycle(&mut again)), (cycle(&mut pool), cycle(&mut pool)));
    assert_eq!(again.tables(), pool.tables());

    let mut short = tables.clone();
    short.logs.pop();
    assert_eq!(Pool::from_tables(sizes, short, collector), Err(Refusal::WrongSize));
    let mut spoilt = tables;
    spoilt.changed[0] = 1;
    assert_eq!(Pool::from_tables(sizes, spoilt, collector), Err(Refusal::NotSound));
    Ok(())
}

/// "64-bit words, lowest number in the lowest bit": record 64 has the last bit of a word, 65 the first of the
/// next.
#[test]
fn a_record_has_its_bit() -> Result<(), Refusal> {
    for n in [1, 63, 64, 65, 127, 128, 1024] {
        let mut pool = pool(n, 1, 1, 1);
        assert_eq!(pool.tables().used.len(), pool.sizes().record_words());
        for place in 0..usize::from(n) {
            assert_eq!(usize::from(pool.make(0, 0)?.number()), place + 1);
            assert_eq!(pool.tables().used[place / 64] >> (place % 64), 1);
            assert!(mark_at(&pool.tables().used, place));
            assert_eq!(pool.free_records(), usize::from(n) - place - 1);
        }
        assert_eq!(pool.make(0, 0), Err(Refusal::NoneFree));
    }
    Ok(())
}

/// "A sound pool has the unused bits at 0, otherwise 2."
#[test]
fn unused_bits_are_off() {
    let tables: [fn(&mut Tables) -> &mut Vec<u64>; 4] =
        [|t| &mut t.used, |t| &mut t.held, |t| &mut t.candidates, |t| &mut t.changed];
    for n in [1, 63, 64, 65, 127, 128, 1024] {
        let sizes = Sizes { n, k: 1, w: 1, r: 1, b: 0 };
        let mut lent = Lent { sizes, tables: Tables::zeros(sizes), collector: Collector::default() };
        for table in tables {
            let bits = 64 * table(&mut lent.tables).len();
            for place in usize::from(n)..bits {
                table(&mut lent.tables)[place / 64] ^= 1 << (place % 64);
                assert!(!lent.is_sound());
                assert_eq!(lent.event(Event::Collect), Err(Refusal::NotSound));
                table(&mut lent.tables)[place / 64] ^= 1 << (place % 64);
            }
            assert!(lent.is_sound());
        }
    }
}

/// N less the ones, of however many words.
#[test]
fn free_records_are_counted_from_any_words() {
    let sizes = Sizes { n: 65, k: 1, w: 1, r: 1, b: 0 };
    let mut lent = Lent { sizes, tables: Tables::zeros(sizes), collector: Collector::default() };
    for (words, free) in [
        (vec![], 65),
        (vec![u64::MAX], 1),
        (vec![u64::MAX, 1], 0),
        (vec![u64::MAX, u64::MAX], 0), // more ones than records
        (vec![0, 1 << 63], 64),        // an unused bit is a one
        (vec![3, 3, 3], 59),
    ] {
        lent.tables.used = words;
        assert_eq!(lent.free_records(), free);
    }
}

#[test]
fn lent_tables_are_checked_at_every_call() {
    let sizes = Sizes { n: 4, k: 1, w: 1, r: 1, b: 0 };
    let zeros = Tables::zeros(sizes);
    let mut lent =
        Lent { sizes, tables: zeros.clone(), collector: Collector { phase: 3, ..Collector::default() } };
    assert!(!lent.is_sound());
    assert_eq!(lent.event(Event::Make { w: 9, r: 9 }), Err(Refusal::NotSound));
    assert_eq!(lent.fresh(), Ok(()));
    assert!(lent.is_sound());
    assert_eq!(lent.collector, Collector::default());
    assert_eq!(lent.event(Event::Make { w: 0, r: 0 }), Ok(Record::of_number(1)));
    assert_eq!(lent.free_records(), 3);
    lent.tables.snoops.push(0);
    let before = lent.clone();
    assert_eq!(lent.event(Event::Make { w: 9, r: 9 }), Err(Refusal::WrongSize));
    assert_eq!(lent.fresh(), Err(Refusal::WrongSize));
    assert_eq!(lent, before);
    assert!(zeros.are_exact(sizes) && !lent.tables.are_exact(sizes));
}

#[test]
fn refusals_have_the_documents_numbers_and_words() {
    let numbers: Vec<u16> = Refusal::ALL.into_iter().map(Refusal::number).collect();
    assert_eq!(numbers, (1..=16).filter(|number| *number != 6).collect::<Vec<u16>>());
    assert!(Refusal::ALL.into_iter().all(|refusal| Refusal::of_number(refusal.number()) == Some(refusal)));
    assert_eq!([0, 6, 17].map(Refusal::of_number), [None; 3]);
    let words: BTreeSet<String> = Refusal::ALL.into_iter().map(|refusal| refusal.to_string()).collect();
    assert_eq!(words.len(), Refusal::ALL.len());
    let error: Box<dyn Error> = Refusal::NotSound.into();
    assert_eq!(error.to_string(), "the pool is not sound");
}

/// A pool is one thread's at a time, and may be handed to another.
#[test]
fn a_pool_goes_to_another_thread() {
    fn may_be_shared<T: Send + Sync>() {}
    may_be_shared::<Pool>();
    let mut pool = pool(2, 1, 1, 1);
    pool.make(0, 0).unwrap();
    let pool = std::thread::spawn(move || {
        pool.make(0, 0).unwrap();
        pool
    });
    assert_eq!(pool.join().unwrap().free_records(), 0);
}

#[test]
fn none_costs_nothing() {
    assert_eq!(std::mem::size_of::<Option<Record>>(), 2);
    assert_eq!(Record::of_number(0), None);
    assert_eq!(Record::of_number(7).map(|record| record.to_string()), Some("7".into()));
}
