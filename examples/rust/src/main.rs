//! A chain of three records is made, dropped and given back; then a table is spoilt, and the check
//! refuses it. What it prints is examples/chain.expected.

#![forbid(unsafe_code)]

use yuyarisun::{Pool, Refusal, Sizes};

fn main() -> Result<(), Refusal> {
    let sizes = Sizes { n: 8, k: 2, w: 1, r: 3, b: 0 };
    let mut pool = Pool::new(sizes)?;

    // Register 0 of worker 0 holds the head. Each new record, in register 1, leads to it by link 0
    // and takes its place.
    for _ in 0..3 {
        let made = pool.make(0, 1)?;
        println!("made {made}");
        pool.store(0, 1, 0, 0)?;
        pool.move_register(0, 0, 1)?;
    }
    if let Some(next) = pool.load(0, 1, 0, 0)? {
        println!("the head leads to {next}");
    }
    if let Err(refusal) = pool.load(0, 1, 2, 0) {
        println!("refused {}: {refusal}", refusal.number());
    }

    pool.drop_register(0, 0)?;
    pool.drop_register(0, 1)?;
    while pool.collector().closed == 0 {
        if let Some(freed) = pool.collect() {
            println!("freed {freed}");
        }
    }
    println!("free records: {}", pool.free_records());

    let (mut tables, collector) = pool.into_tables();
    tables.counts[0] = 7; // no link counts for record 1
    if let Err(refusal) = Pool::from_tables(sizes, tables, collector) {
        println!("refused {}: {refusal}", refusal.number());
    }
    Ok(())
}
