//! Everything that is measured, and the table. `bench/run` builds what it needs and calls it so:
//!
//!     measure [--small] REPLAY REPORT SECOND BOEHM
//!                                               the programs; BOEHM is `-` where it can't be had
//!
//! Outputs are compared first; it ends with 1 if two differ, or if something does not run. With
//! `--small` everything is done once on a small case, and the times say nothing.

use bench::made::{self, Maker, COLLECTOR_HEAVY, WORKER_HEAVY};
use bench::parts::{self, Parts};
use bench::situation::{self, all_changed, Written};
use bench::table::{grouped, time, Table};
use bench::{check, child, clock, counted, flat};
use std::error::Error;
use std::fmt::Debug;
use std::fs::{self, File};
use std::hint::black_box;
use std::io::{BufWriter, Read, Seek, SeekFrom, Write};
use std::path::{Path, PathBuf};
use std::{env, iter};
use yuyarisun::{join_into, Answer, Event, Lent, Pool, Record, Sizes};

/// Counted calls, each with its name.
type Calls = Vec<(String, u64)>;
type Done<T = ()> = Result<T, Box<dyn Error>>;

const LARGEST: Sizes = Sizes::LARGEST;
const SEED: u64 = 1;

/// How much of everything.
struct Scale {
    events: u32,
    /// The second program is much slower, and so is whatever callgrind runs.
    fewer_events: u32,
    turns: usize,
    check_turns: usize,
    call_events: usize,
    records: &'static [u16],
}

const FULL: Scale = Scale {
    events: 10_000_000,
    fewer_events: 200_000,
    turns: 15,
    check_turns: 5_000,
    call_events: 400_000,
    records: &[64, 128, 256, 512, 1024],
};

const SMALL: Scale = Scale {
    events: 20_000,
    fewer_events: 2_000,
    turns: 1,
    check_turns: 3,
    call_events: 20_000,
    records: &[64, 128],
};

struct Bench {
    scale: &'static Scale,
    replay: PathBuf,
    report: PathBuf,
    second: PathBuf,
    boehm: Option<PathBuf>,
    flat: PathBuf,
    single: PathBuf,
    /// Traces and outputs; removed at the end.
    folder: PathBuf,
    table: Table,
}

const KINDS: [(&str, usize); 2] = [("worker-heavy", WORKER_HEAVY), ("collector-heavy", COLLECTOR_HEAVY)];

fn same_bytes(a: &Path, b: &Path) -> Done<bool> {
    let (mut a, mut b) = (File::open(a)?, File::open(b)?);
    if a.metadata()?.len() != b.metadata()?.len() {
        return Ok(false);
    }
    let (mut x, mut y) = (vec![0; 1 << 16], vec![0; 1 << 16]);
    loop {
        let n = a.read(&mut x)?;
        if n == 0 {
            return Ok(true);
        }
        b.read_exact(&mut y[..n])?;
        if x[..n] != y[..n] {
            return Ok(false);
        }
    }
}

/// The last line of a file.
fn last_line(path: &Path) -> Done<Vec<u8>> {
    let mut file = File::open(path)?;
    let length = file.metadata()?.len();
    file.seek(SeekFrom::Start(length.saturating_sub(100)))?;
    let mut end = Vec::new();
    file.read_to_end(&mut end)?;
    let lines = end.split_inclusive(|byte| *byte == b'\n');
    Ok(lines.last().ok_or("nothing is printed")?.to_vec())
}

fn an_event(seconds: f64, events: u32) -> String {
    format!("{} an event", time(seconds / f64::from(events)))
}

fn instructions_an_event(count: u64, events: u32) -> String {
    format!("{:.1} instructions an event", count as f64 / f64::from(events))
}

impl Bench {
    fn trace(&self, collects: usize, events: u32) -> Done<PathBuf> {
        let path = self.folder.join(format!("{collects}-{events}.trace"));
        if !path.exists() {
            let mut to = BufWriter::new(File::create(&path)?);
            made::write_trace(&mut to, SEED, collects, events)?;
            to.flush()?;
        }
        Ok(path)
    }

    fn stored_again(&self, events: u32) -> Done<PathBuf> {
        let path = self.folder.join("stored-again.trace");
        let mut to = BufWriter::new(File::create(&path)?);
        made::write_stored_again(&mut to, events)?;
        to.flush()?;
        Ok(path)
    }

    /// Two programs print the same for a trace.
    fn compare(&self, a: &Path, b: &Path, trace: &Path) -> Done {
        let (printed_a, printed_b) = (self.folder.join("printed.a"), self.folder.join("printed.b"));
        child::seconds(a, trace, &printed_a)?;
        child::seconds(b, trace, &printed_b)?;
        if !same_bytes(&printed_a, &printed_b)? {
            return Err(format!("{} and {} print different lines", a.display(), b.display()).into());
        }
        fs::remove_file(printed_a)?;
        fs::remove_file(printed_b)?;
        Ok(())
    }

    /// `report` and `replay` end a trace alike; a report has fewer lines.
    fn compare_ends(&self, trace: &Path) -> Done {
        let (reported, replayed) = (self.folder.join("printed.a"), self.folder.join("printed.b"));
        child::seconds(&self.report, trace, &reported)?;
        child::seconds(&self.replay, trace, &replayed)?;
        if last_line(&reported)? != last_line(&replayed)? {
            return Err("report and replay end a trace with different lines".into());
        }
        fs::remove_file(reported)?;
        fs::remove_file(replayed)?;
        Ok(())
    }

    /// The processor time of two programs on a trace, the best of some turns.
    fn timed(&self, a: &Path, b: &Path, trace: &Path) -> Done<(f64, f64)> {
        let nothing = Path::new("/dev/null");
        let (mut this, mut that) = (f64::INFINITY, f64::INFINITY);
        for _ in 0..self.scale.turns {
            this = this.min(child::seconds(a, trace, nothing)?);
            that = that.min(child::seconds(b, trace, nothing)?);
        }
        Ok((this, that))
    }

    /// `replay` beside another program on a made trace.
    fn beside(&mut self, name: &str, program: PathBuf, kind: (&str, usize), events: u32) -> Done {
        let trace = self.trace(kind.1, events)?;
        self.compare(&self.replay, &program, &trace)?;
        let (this, that) = self.timed(&self.replay, &program, &trace)?;
        let what = format!("replay, {} trace, {} events, beside {name}", kind.0, grouped(events.into()));
        self.table.row(&what, an_event(this, events), an_event(that, events), this / that);
        Ok(())
    }

    /// `report` beside `replay`, on the same trace.
    fn reports(&mut self) -> Done {
        let events = self.scale.events;
        for (kind, collects) in KINDS {
            let trace = self.trace(collects, events)?;
            self.compare_ends(&trace)?;
            let (this, that) = self.timed(&self.report, &self.replay, &trace)?;
            let what = format!("report, {kind} trace, {} events, beside replay", grouped(events.into()));
            self.table.row(&what, an_event(this, events), an_event(that, events), this / that);
        }
        Ok(())
    }

    fn replays(&mut self) -> Done {
        for kind in KINDS {
            self.beside("flat-array Rust", self.flat.clone(), kind, self.scale.events)?;
        }
        for kind in KINDS {
            self.beside("the second program", self.second.clone(), kind, self.scale.fewer_events)?;
        }
        Ok(())
    }

    /// The same in instructions, on a shorter trace.
    fn replay_instructions(&mut self) -> Done {
        let events = self.scale.fewer_events;
        let mut traces = Vec::new();
        for (kind, collects) in KINDS {
            traces.push((format!("{kind} trace"), self.trace(collects, events)?));
        }
        traces.push(("a link stored again right after its clearing".into(), self.stored_again(events)?));
        for (kind, trace) in traces {
            self.compare(&self.replay, &self.flat, &trace)?;
            let this = counted::whole(&self.replay, &trace, &self.folder)?;
            let that = counted::whole(&self.flat, &trace, &self.folder)?;
            let each = |count| instructions_an_event(count, events);
            let what = format!("replay, {kind}, {} events, beside flat-array Rust", grouped(events.into()));
            self.table.row(&what, each(this), each(that), this as f64 / that as f64);
        }
        Ok(())
    }

    /// `report` beside `replay` in instructions.
    fn report_instructions(&mut self) -> Done {
        let events = self.scale.fewer_events;
        for (kind, collects) in KINDS {
            let trace = self.trace(collects, events)?;
            self.compare_ends(&trace)?;
            let this = counted::whole(&self.report, &trace, &self.folder)?;
            let that = counted::whole(&self.replay, &trace, &self.folder)?;
            let each = |count| instructions_an_event(count, events);
            let what = format!("report, {kind} trace, {} events, beside replay", grouped(events.into()));
            self.table.row(&what, each(this), each(that), this as f64 / that as f64);
        }
        Ok(())
    }

    fn memory(&mut self) -> Done {
        let events = self.scale.events;
        for (name, program) in [("replay", self.replay.clone()), ("report", self.report.clone())] {
            for (kind, collects) in KINDS {
                let many = child::peak(&program, &self.trace(collects, events)?)?;
                let few = child::peak(&program, &self.trace(collects, events / 10)?)?;
                let what = format!(
                    "peak memory of {name}, {kind} trace, {} events beside {}",
                    grouped(events.into()),
                    grouped((events / 10).into())
                );
                let kibibytes = |n| format!("{} KiB", grouped(n));
                self.table.row(&what, kibibytes(many), kibibytes(few), many as f64 / few as f64);
            }
        }
        Ok(())
    }

    /// The checked call beside the flat check of the same clauses, and beside reading the tables.
    fn checks(&mut self) -> Done {
        let pools = [
            ("no entry", situation::quiet(LARGEST)),
            ("every second link in a log", situation::half_changed(LARGEST)),
            ("every link in the history and in a log", all_changed(LARGEST, 0, Written::Last)),
        ];
        for (name, mut pool) in pools {
            agree(&pool)?;
            let copy = pool.clone();
            let times = clock::best(
                self.scale.check_turns,
                &mut [
                    &mut || {
                        black_box(pool.event(Event::Move { w: 0, r: 0, q: 0 })).ok();
                    },
                    &mut || {
                        black_box(check::sound(black_box(&copy)));
                    },
                    &mut || {
                        black_box(check::read(black_box(&copy.tables)));
                    },
                ],
            );
            if pool != copy {
                return Err("a register that takes what it holds changes the pool".into());
            }
            for (other, seconds) in
                [("the flat-array check", times[1]), ("reading the tables once", times[2])]
            {
                let what = format!("checked call, largest pool, {name}, beside {other}");
                self.table.row(&what, time(times[0]), time(seconds), times[0] / seconds);
            }
        }
        Ok(())
    }

    /// The event of the Rust type `Pool`, which checks nothing, beside the flat-array event, on the
    /// largest pool.
    fn pool_events(&mut self) -> Done {
        for (kind, collects) in KINDS {
            let mut maker = Box::new(Maker::<1024, 8, 8, 16, 16>::new(SEED, collects));
            let numbers: Vec<made::Event> =
                iter::repeat_with(|| maker.next()).take(self.scale.call_events).collect();
            let events: Vec<Event> = numbers.iter().map(event_of).collect();
            let fresh = Box::new(
                flat::Pool::<1024, 8, 8, 16, 16>::fresh(1024, 8, 8, 16, 16).ok_or("the largest sizes")?,
            );
            let (mut pool, mut flat) = (Pool::new(LARGEST)?, fresh.clone());
            for (event, [tag, a, b, c, d]) in events.iter().zip(numbers.iter().copied()) {
                if in_numbers(pool.event(*event)) != flat.event(tag, a, b, c, d) {
                    return Err("the event of the Rust type and the flat-array event differ".into());
                }
            }
            let (tables, collector) = pool.into_tables();
            agree(&Lent { sizes: LARGEST, tables, collector })?;
            let times = clock::best(
                self.scale.turns,
                &mut [
                    &mut || {
                        let mut pool = Pool::new(LARGEST).expect("the largest sizes");
                        for event in &events {
                            black_box(pool.event(*event)).ok();
                        }
                    },
                    &mut || {
                        let mut flat = fresh.clone();
                        for [tag, a, b, c, d] in numbers.iter().copied() {
                            black_box(flat.event(tag, a, b, c, d));
                        }
                    },
                ],
            );
            let each = |seconds: f64| format!("{} an event", time(seconds / events.len() as f64));
            let what = format!("event of the Rust type, largest pool, {kind}, beside the flat-array event");
            self.table.row(&what, each(times[0]), each(times[1]), times[0] / times[1]);
        }
        Ok(())
    }

    /// Joining the parts of a made trace beside a plain merge, and beside reading and writing the bytes
    /// once.
    fn joins(&mut self) -> Done {
        let events = self.scale.events / 10;
        for (kind, collects) in KINDS {
            let mut trace = Vec::new();
            made::write_trace(&mut trace, SEED, collects, events)?;
            let by_worker = |_: usize, field: &[u8]| field.get(7).map_or(4, |w| usize::from(*w));
            self.joined(&format!("5 parts by worker, {kind}"), &trace, parts::deal(&trace, 5, by_worker))?;
            let in_turns = parts::deal(&trace, 9, |step, _| step % 9);
            self.joined(&format!("9 parts in turns, {kind}"), &trace, in_turns)?;
        }
        Ok(())
    }

    fn joined(&mut self, name: &str, trace: &[u8], parts: Parts) -> Done {
        let mut out = vec![0; parts.bytes.len()];
        let length = join_into(&parts.bytes, &parts.lengths, &mut out)?;
        let mut merged = vec![0; parts.bytes.len()];
        if out[..length] != *trace || parts::merge(&parts, &mut merged) != Some(length) || out != merged {
            return Err(format!("{name}: joined to another trace").into());
        }
        let mut copied = vec![0; parts.bytes.len()];
        let times = clock::best(
            self.scale.turns,
            &mut [
                &mut || {
                    black_box(join_into(black_box(&parts.bytes), &parts.lengths, &mut out)).ok();
                },
                &mut || {
                    black_box(parts::merge(black_box(&parts), &mut merged));
                },
                &mut || black_box(&mut copied).copy_from_slice(black_box(&parts.bytes)),
            ],
        );
        let each = |seconds: f64| format!("{} a KiB", time(seconds / parts.bytes.len() as f64 * 1024.0));
        for (other, seconds) in
            [("a plain Rust merge", times[1]), ("reading and writing the bytes once", times[2])]
        {
            let what = format!("joining {name}, {} bytes, beside {other}", grouped(trace.len() as u64));
            self.table.row(&what, each(times[0]), each(seconds), times[0] / seconds);
        }
        Ok(())
    }

    /// Instructions of the calls that `single` makes, for each N.
    fn counts(&self, mode: &str, function: &str) -> Done<Vec<Calls>> {
        let count = |n: &u16| counted::calls(&self.single, &[mode, &n.to_string()], function, &self.folder);
        Ok(self.scale.records.iter().map(count).collect::<Result<_, _>>()?)
    }

    /// Each call at the largest N beside the smaller ones; the ratio is to the smallest.
    fn growth(&mut self, calls: &[Calls]) {
        let records = self.scale.records;
        let (first, last) = (&calls[0], &calls[calls.len() - 1]);
        for (i, (name, most)) in last.iter().enumerate() {
            let smaller = records[..records.len() - 1].iter().zip(calls);
            let smaller: Vec<String> =
                smaller.map(|(n, calls)| format!("{} at {n}", grouped(calls[i].1))).collect();
            let what =
                format!("instructions of one {name}, at N {}", grouped(records[records.len() - 1].into()));
            self.table.row(&what, grouped(*most), smaller.join(", "), *most as f64 / first[i].1 as f64);
        }
    }

    /// The longest step, which a worker may have to wait for, beside the longest stop of a collector
    /// that stops the world.
    fn longest(&mut self, how: &str, calls: &[Calls], stops: Option<&[Calls]>) -> Done {
        for (i, n) in self.scale.records.iter().enumerate() {
            let longest =
                |calls: &Calls| calls.iter().max_by_key(|call| call.1).cloned().ok_or("nothing was counted");
            let (name, step) = longest(&calls[i])?;
            let what = format!(
                "longest step {how} at N {} ({name}), beside Boehm's longest stop",
                grouped((*n).into())
            );
            let instructions = |n| format!("{} instructions", grouped(n));
            match stops {
                Some(stops) => {
                    let stop = longest(&stops[i])?.1;
                    self.table.row(&what, instructions(step), instructions(stop), step as f64 / stop as f64);
                }
                None => self.table.missing(&what, instructions(step), "libgc-dev can't be had"),
            }
        }
        Ok(())
    }

    fn instructions(&mut self) -> Done {
        self.replay_instructions()?;
        self.report_instructions()?;
        let steps = self.counts("steps", "yuyarisun_inner_event")?;
        let checks = self.counts("check", "yuyarisun_sound")?;
        let checked = self.counts("checked", "yuyarisun_collect")?;
        let stop =
            |boehm: &PathBuf, n: &u16| counted::calls(boehm, &[&n.to_string()], "GC_gcollect", &self.folder);
        let stops: Option<Vec<Calls>> = match &self.boehm {
            Some(boehm) => Some(self.scale.records.iter().map(|n| stop(boehm, n)).collect::<Result<_, _>>()?),
            None => None,
        };
        self.growth(&steps);
        self.growth(&checks);
        self.longest("without its check", &steps, stops.as_deref())?;
        self.longest("with its check", &checked, stops.as_deref())
    }

    fn all(&mut self) -> Done {
        self.replays()?;
        self.reports()?;
        self.checks()?;
        self.pool_events()?;
        self.joins()?;
        if counted::is_there() {
            self.instructions()?;
        } else {
            self.table.missing(
                "growth with N, and the longest step",
                "not measured".into(),
                "valgrind can't be had",
            );
        }
        self.memory()
    }
}

/// An event of a trace as a value.
fn event_of(&[tag, a, b, c, d]: &made::Event) -> Event {
    match tag {
        0x10 => Event::Make { w: a, r: b },
        0x11 => Event::Move { w: a, r: b, q: c },
        0x12 => Event::Drop { w: a, r: b },
        0x13 => Event::Load { w: a, r: b, q: c, f: d },
        0x14 => Event::Store { w: a, q: b, f: c, r: d },
        0x15 => Event::Look { w: a, r: b, e: c },
        0x16 => Event::Post { w: a, e: b, r: c },
        _ => Event::Collect,
    }
}

/// An answer as the flat pool gives it: its number and its value.
fn in_numbers(answer: Answer) -> (u16, u16) {
    answer.map_or_else(|why| (why.number(), 0), |value| (0, value.map_or(0, Record::number)))
}

/// The check in the library and the flat one answer the same, on a sound pool and on damaged ones.
fn agree(pool: &Lent) -> Done {
    if !pool.is_sound() || !check::sound(pool) {
        return Err("a pool that should be sound is not".into());
    }
    let marks: [fn(&mut Lent) -> &mut Vec<u64>; 4] = [
        |pool| &mut pool.tables.used,
        |pool| &mut pool.tables.held,
        |pool| &mut pool.tables.candidates,
        |pool| &mut pool.tables.changed,
    ];
    let numbers: [fn(&mut Lent) -> &mut Vec<u16>; 8] = [
        |pool| &mut pool.tables.counts,
        |pool| &mut pool.tables.makers,
        |pool| &mut pool.tables.values,
        |pool| &mut pool.tables.registers,
        |pool| &mut pool.tables.snoops,
        |pool| &mut pool.tables.logs,
        |pool| &mut pool.tables.history,
        |pool| &mut pool.tables.lengths,
    ];
    damaged(pool, &marks, &[0, 1, 2, 1 << 16, 1 << 63, u64::MAX])?;
    damaged(pool, &numbers, &[0, 1, 2, 1025, LARGEST.links() as u16, u16::MAX])
}

/// The same with one of these in the place of another, in each of the tables.
fn damaged<T: Copy + Debug>(pool: &Lent, tables: &[fn(&mut Lent) -> &mut Vec<T>], others: &[T]) -> Done {
    let mut damaged = pool.clone();
    for (i, table) in tables.iter().enumerate() {
        let length = table(&mut damaged).len();
        for place in [0, length / 2, length - 1] {
            for other in others {
                let before = std::mem::replace(&mut table(&mut damaged)[place], *other);
                if damaged.is_sound() != check::sound(&damaged) {
                    return Err(format!("the checks differ: table {i}, place {place}, {other:?}").into());
                }
                table(&mut damaged)[place] = before;
            }
        }
    }
    Ok(())
}

fn main() -> Done {
    let words: Vec<String> = env::args().skip(1).collect();
    let (small, programs) = match words.split_first() {
        Some((first, rest)) if first == "--small" => (true, rest),
        _ => (false, &words[..]),
    };
    let [replay, report, second, boehm] = programs else {
        return Err("usage: measure [--small] REPLAY REPORT SECOND BOEHM".into());
    };
    let here = env::current_exe()?;
    let beside = |name: &str| here.with_file_name(name);
    let folder = env::temp_dir().join(format!("bench-{}", std::process::id()));
    fs::create_dir_all(&folder)?;
    let mut bench = Bench {
        scale: if small { &SMALL } else { &FULL },
        replay: replay.into(),
        report: report.into(),
        second: second.into(),
        boehm: (boehm != "-").then(|| boehm.into()),
        flat: beside("flat"),
        single: beside("single"),
        folder,
        table: Table::default(),
    };
    let done = bench.all();
    fs::remove_dir_all(&bench.folder)?;
    bench.table.print();
    done
}
