//! What a set of traces reached: how often each answer number, each phase, each event in each
//! phase, each kind of damage and each of the situations that the rules are about.

use std::cmp::Ordering;
use std::collections::{BTreeMap, BTreeSet};
use std::fmt;

use crate::board::{self, Board};
use crate::damage::Damage;
use crate::ends::{at_ends, AT_ENDS, OF_REPLAY};
use crate::event::{
    goes_through_none, makes_without_a_free_record, names_no_such_entry, names_no_such_link,
    names_no_such_register, names_no_such_worker, Answer, Event,
};
use crate::pool::{Link, Pool, Record, Sizes};
use crate::replay::Ending;
use crate::report::Cycle;
use crate::trace::Kind;
use crate::waiting::{self, reclaims, Waiting, RECLAIMS};

const KINDS: [Kind; 8] =
    [Kind::Make, Kind::Move, Kind::Drop, Kind::Load, Kind::Store, Kind::Look, Kind::Post, Kind::Collect];

/// The answer numbers of events and traces. "The number 6 isn't used again" (document 02, request 4).
const NUMBERS: [u8; 14] = [0, 1, 2, 3, 4, 5, 7, 8, 9, 10, 11, 12, 13, 14];

/// The one of them that no trace reaches, with the reason. It must stay at 0.
const UNREACHED: (u8, &str) =
    (2, "not from a trace: it starts fresh, every event leaves a sound pool, none is checked again");

/// How a sizes field says B.
pub const SIZES_FIELDS: [&str; 3] =
    ["sizes of length 8", "sizes of length 10 with B = 0", "sizes of length 10 with B above 0"];

/// Which of these a sizes field is.
pub fn sizes_fields(sizes: Sizes, carries_b: bool) -> [bool; SIZES_FIELDS.len()] {
    [!carries_b, carries_b && sizes.b == 0, carries_b && sizes.b > 0]
}

/// What a make comes upon, of the records above the last made, below it, and that record itself.
pub const MAKES: [&str; 5] = [
    "make: a record above the last made is free, and one below it",
    "make: a record above the last made is free, and the last made itself",
    "make: none above the last made is free, one below it is",
    "make: none above the last made is free, one below it is, and the last made itself",
    "make: of several records only the last made itself is free",
];

/// Which of these hold of a pool.
pub fn makes(before: &Pool) -> [bool; MAKES.len()] {
    let free = before.sizes.records().filter(|record| before.is_free(record));
    let sides: BTreeSet<Ordering> = free.map(|record| Some(record).cmp(&before.last_made)).collect();
    let [below, itself, above] =
        [Ordering::Less, Ordering::Equal, Ordering::Greater].map(|side| sides.contains(&side));
    [
        above && below,
        above && itself,
        !above && below,
        !above && below && itself,
        !above && !below && itself && before.sizes.n > 1,
    ]
}

/// What an event may be refused for at once. The first of them is answered.
pub const WRONGS: [&str; 11] = [
    "wrong: a worker and a register",
    "wrong: a worker and a link",
    "wrong: a register and a link",
    "wrong: a worker, a register and a link",
    "wrong: a worker and a board entry",
    "wrong: a register and a board entry",
    "wrong: a worker, a register and a board entry",
    "wrong: a register, and the other one, gone through, holds none",
    "wrong: a link, and the register gone through holds none",
    "wrong: a worker, and no record is free to be made",
    "wrong: a register, and no record is free to be made",
];

/// Which of these hold of an event on a pool.
pub fn wrongs(before: &Pool, event: Event) -> [bool; WRONGS.len()] {
    let sizes = before.sizes;
    let worker = names_no_such_worker(sizes, event);
    let register = names_no_such_register(sizes, event);
    let link = names_no_such_link(sizes, event);
    let entry = names_no_such_entry(sizes, event);
    let none = goes_through_none(before, event);
    let full = makes_without_a_free_record(before, event);
    [
        worker && register && !link && !entry,
        worker && !register && link,
        !worker && register && link,
        worker && register && link,
        worker && !register && entry,
        !worker && register && entry,
        worker && register && entry,
        register && !link && none,
        !register && link && none,
        worker && !register && full,
        !worker && register && full,
    ]
}

/// What a closed cycle may be.
pub const CYCLES: [&str; 8] = [
    "cycle: its net is below nought",
    "cycle: its net is below nought, and no record is freed",
    "cycle: its net is below nought, nothing is taken and no record is freed",
    "cycle: its net is nought, and entries are taken",
    "cycle: its net is above nought",
    "cycle: its net is above nought, and records are freed",
    "cycle: nothing is taken, and several records are freed",
    "cycle: nothing is taken and nothing is freed",
];

/// Which of these hold of a cycle.
pub fn cycles(cycle: &Cycle) -> [bool; CYCLES.len()] {
    let Cycle { taken, freed, net } = *cycle;
    [
        net < 0,
        net < 0 && freed == 0,
        net < 0 && freed == 0 && taken == 0,
        net == 0 && taken > 0,
        net > 0,
        net > 0 && freed > 0,
        taken == 0 && freed > 1,
        taken == 0 && freed == 0,
    ]
}

/// How a trace may leave a cycle.
pub const LEFT_OPEN: [&str; 2] =
    ["a trace is refused in an open cycle", "a whole trace ends in an open cycle"];

/// Which of these hold of a trace.
pub fn left_open(ending: &Ending, is_open: bool) -> [bool; LEFT_OPEN.len()] {
    [is_open && matches!(ending, Ending::Refused(_)), is_open && *ending == Ending::Whole]
}

/// Situations that the rules are about and an answer number does not show.
const SITUATIONS: [&str; 9] = [
    "store logs an overwritten record",
    "store on a link that is marked already",
    "snooped store of a record",
    "entry counted whose link is marked again and holds another value",
    "phase 6 passes over a candidate that only its held mark keeps",
    "opening with lost records that no loop keeps",
    "opening with lost records that a loop keeps",
    "record made by a worker, freed, and made by another",
    "opening with a record that the registers of two workers lead to",
];

#[derive(Default)]
pub struct Tally {
    pub traces: u64,
    whole: u64,
    answers: [u64; NUMBERS.len()],
    /// Events answered with 0, by kind and by the phase they came in.
    done: [[u64; 7]; KINDS.len()],
    damages: BTreeMap<&'static str, u64>,
    makes: [u64; MAKES.len()],
    wrongs: [u64; WRONGS.len()],
    situations: [u64; SITUATIONS.len()],
    sizes_fields: [u64; SIZES_FIELDS.len()],
    at_ends: [u64; OF_REPLAY],
    cycles: [u64; CYCLES.len()],
    left_open: [u64; LEFT_OPEN.len()],
    board: Board,
    reclaims: [u64; RECLAIMS.len()],
    waiting: Waiting,
    last_maker: BTreeMap<Record, u8>,
    /// Whether a cycle is open.
    is_open: bool,
}

impl Tally {
    /// A fresh pool, of the sizes that a field has said so.
    pub fn begin(&mut self, sizes: Sizes, carries_b: bool) {
        self.board.begin();
        self.waiting.begin();
        for (times, came) in self.sizes_fields.iter_mut().zip(sizes_fields(sizes, carries_b)) {
            *times += u64::from(came);
        }
        for (times, came) in self.at_ends.iter_mut().zip(at_ends(sizes)) {
            *times += u64::from(came);
        }
    }

    /// One event, with the pool it came upon and the one that it left.
    pub fn event(&mut self, before: &Pool, event: Event, answer: Answer, after: &Pool) {
        self.answered(answer.number);
        for (times, came) in self.wrongs.iter_mut().zip(wrongs(before, event)) {
            *times += u64::from(came);
        }
        if answer.number != 0 {
            return;
        }
        self.board.event(before, event, answer, after);
        self.is_open = after.phase != 0;
        self.waiting.event(before, event, answer, after);
        let phase = usize::from(before.phase);
        for (done, kind) in self.done.iter_mut().zip(KINDS) {
            done[phase] += u64::from(kind == event.kind());
        }
        match event {
            Event::Store { w, q, f, r } => self.store(before, [w, q, f, r]),
            Event::Collect => self.collector_step(before),
            Event::Make { w, .. } => self.make(before, w, answer.value),
            _ => {}
        }
    }

    fn answered(&mut self, number: u8) {
        let place = NUMBERS.into_iter().position(|other| other == number);
        self.answers[place.unwrap_or_else(|| panic!("{number} is no answer number"))] += 1;
    }

    fn store(&mut self, before: &Pool, numbers: [u8; 4]) {
        let [w, q, f, r] = numbers.map(usize::from);
        let worker = &before.workers[w];
        let Some(record) = worker.registers[q] else { return };
        let link = Link::Of { record, f };
        let marked = before.changed.contains(&link);
        self.situations[0] += u64::from(!marked && before.value(link).is_some());
        self.situations[1] += u64::from(marked);
        self.situations[2] += u64::from(worker.snoops && worker.registers[r].is_some());
    }

    fn collector_step(&mut self, before: &Pool) {
        if before.phase == 5 {
            let link = before.history[before.position].link;
            let mut logged = before.workers.iter().flat_map(|worker| &worker.log);
            let again = logged.find(|entry| entry.link == link);
            let differs = again.is_some_and(|entry| entry.old != before.value(link));
            self.situations[3] += u64::from(differs);
        }
        if before.phase == 6 {
            let marked: BTreeSet<Record> = before.changed.iter().filter_map(|link| link.record()).collect();
            let kept_by_its_mark = |record: &Record| {
                before.count(*record) == 0 && before.held.contains(record) && !marked.contains(record)
            };
            self.situations[4] += u64::from(before.candidates.iter().any(kept_by_its_mark));
        }
        for (times, came) in self.reclaims.iter_mut().zip(reclaims(before)) {
            *times += u64::from(came);
        }
    }

    fn make(&mut self, before: &Pool, w: u8, made: Option<Record>) {
        for (times, came) in self.makes.iter_mut().zip(makes(before)) {
            *times += u64::from(came);
        }
        let Some(record) = made else { return };
        let maker_before = self.last_maker.insert(record, w);
        self.situations[7] += u64::from(maker_before.is_some_and(|maker| maker != w));
    }

    /// The opening of a cycle: what was lost, and which of it is left to loops.
    pub fn opening(&mut self, lost: &BTreeSet<Record>, left: &BTreeSet<Record>, shared: bool) {
        self.situations[5] += u64::from(left.len() < lost.len());
        self.situations[6] += u64::from(!left.is_empty());
        self.situations[8] += u64::from(shared);
    }

    /// A cycle closes.
    pub fn cycle(&mut self, cycle: &Cycle) {
        for (times, came) in self.cycles.iter_mut().zip(cycles(cycle)) {
            *times += u64::from(came);
        }
    }

    /// The end of a trace.
    pub fn ending(&mut self, ending: &Ending, damage: Option<Damage>) {
        self.traces += 1;
        self.last_maker.clear();
        let is_open = std::mem::take(&mut self.is_open);
        for (times, came) in self.left_open.iter_mut().zip(left_open(ending, is_open)) {
            *times += u64::from(came);
        }
        match ending {
            Ending::Whole => self.whole += 1,
            Ending::Refused(refusal) => self.answered(refusal.number),
            Ending::Broken { .. } => {}
        }
        if let Some(damage) = damage {
            *self.damages.entry(damage.name()).or_insert(0) += 1;
        }
    }

    /// How often each situation came up.
    fn came_up(&self) -> impl Iterator<Item = (u64, &'static str)> + '_ {
        let makes = self.makes.iter().copied().zip(MAKES);
        let wrongs = self.wrongs.iter().copied().zip(WRONGS);
        let situations = self.situations.iter().copied().zip(SITUATIONS);
        let sizes_fields = self.sizes_fields.iter().copied().zip(SIZES_FIELDS);
        let at_ends = self.at_ends.iter().copied().zip(AT_ENDS);
        let cycles = self.cycles.iter().copied().zip(CYCLES);
        let left_open = self.left_open.iter().copied().zip(LEFT_OPEN);
        let board = self.board.situations.iter().copied().zip(board::SITUATIONS);
        let reclaims = self.reclaims.iter().copied().zip(RECLAIMS);
        let waiting = self.waiting.situations.iter().copied().zip(waiting::SITUATIONS);
        let of_events = makes.chain(wrongs).chain(situations).chain(board).chain(reclaims).chain(waiting);
        of_events.chain(sizes_fields).chain(at_ends).chain(cycles).chain(left_open)
    }

    /// What should have been reached and was not, and what was reached and cannot be.
    pub fn faults(&self) -> Vec<String> {
        let mut faults = Vec::new();
        let mut judge = |what: String, times: u64, reachable: bool| {
            if (times > 0) != reachable {
                let verb = if reachable { "never reached" } else { "reached" };
                faults.push(format!("{verb}: {what}"));
            }
        };
        for (number, times) in NUMBERS.into_iter().zip(self.answers) {
            judge(format!("answer {number}"), times, number != UNREACHED.0);
        }
        for (row, kind) in self.done.iter().zip(KINDS) {
            for (phase, times) in row.iter().enumerate() {
                judge(format!("{} in phase {phase}", kind.name()), *times, true);
            }
        }
        for (row, what) in self.board.in_phases.iter().zip(board::IN_PHASES) {
            for (phase, times) in row.iter().enumerate() {
                judge(format!("{what}, in phase {phase}"), *times, true);
            }
        }
        for damage in Damage::ALL {
            let times = self.damages.get(damage.name()).copied().unwrap_or(0);
            judge(format!("damage: {}", damage.name()), times, true);
        }
        for (times, situation) in self.came_up() {
            judge(situation.into(), times, true);
        }
        faults
    }
}

impl fmt::Display for Tally {
    fn fmt(&self, out: &mut fmt::Formatter) -> fmt::Result {
        writeln!(out, "{} traces: {} whole, {} refused", self.traces, self.whole, self.traces - self.whole)?;
        writeln!(out, "how often each answer number was given:")?;
        let (unreached, why) = UNREACHED;
        for (number, times) in NUMBERS.into_iter().zip(self.answers) {
            let note = if number == unreached { format!("  ({why})") } else { String::new() };
            writeln!(out, "{number:>4} {times:>10}{note}")?;
        }
        writeln!(
            out,
            "how often each event was answered with 0 in each phase (collect: the phase was stepped):"
        )?;
        writeln!(out, "{:>8} {}", "", (0..7).map(|phase| format!("{phase:>9}")).collect::<String>())?;
        for (row, kind) in self.done.iter().zip(KINDS) {
            writeln!(out, "{:>8} {}", kind.name(), row.map(|times| format!("{times:>9}")).concat())?;
        }
        writeln!(out, "how often each of these came up in each phase:")?;
        for (row, what) in self.board.in_phases.iter().zip(board::IN_PHASES) {
            writeln!(out, "{:>8} {}  {what}", "", row.map(|times| format!("{times:>9}")).concat())?;
        }
        writeln!(out, "how often each kind of damage was done:")?;
        for (name, times) in &self.damages {
            writeln!(out, "{times:>10}  {name}")?;
        }
        writeln!(out, "how often each situation came up:")?;
        for (times, situation) in self.came_up() {
            writeln!(out, "{times:>10}  {situation}")?;
        }
        Ok(())
    }
}
