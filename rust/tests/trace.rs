//! Many events and whole traces as the crate's users see them.

use std::error::Error;

use yuyarisun::{
    answers_in, answers_length, cycles_in, cycles_length, replay, report, Answer, Collector, Cycle, Event,
    Field, Lent, Pool, Record, Refusal, Reported, Sizes, Stop, Tables, Whole,
};

const MAKE: Event = Event::Make { w: 0, r: 0 };
const DROP: Event = Event::Drop { w: 0, r: 0 };
const SIZES: Sizes = Sizes { n: 2, k: 1, w: 1, r: 1, b: 0 };

fn fields(events: &[Event]) -> Vec<u8> {
    let mut bytes = Vec::new();
    (1..).zip(events).for_each(|(step, event)| Field::Event { step, event: *event }.put(&mut bytes));
    bytes
}

fn trace(sizes: Sizes, events: &[Event]) -> Vec<u8> {
    let mut bytes = Vec::new();
    Field::Sizes(sizes).put(&mut bytes);
    bytes.extend(fields(events));
    Field::End { count: events.len() as u32 }.put(&mut bytes);
    bytes
}

fn lent(sizes: Sizes) -> Lent {
    Lent { sizes, tables: Tables::zeros(sizes), collector: Collector::default() }
}

/// The document's whole case, in hexadecimal there.
fn whole_case() -> Vec<u8> {
    let mut events = vec![MAKE, DROP];
    events.extend([Event::Collect; 6]);
    events.push(MAKE);
    trace(SIZES, &events)
}

#[test]
fn fields_are_the_documents() {
    let bytes = whole_case();
    assert_eq!(bytes[..11], [0x01, 0x00, 0x08, 0x00, 0x02, 0x00, 0x01, 0x00, 0x01, 0x00, 0x01]);
    assert_eq!(bytes[11..20], [0x10, 0x00, 0x06, 0, 0, 0, 1, 0, 0]);
    assert_eq!(bytes[20..29], [0x12, 0x00, 0x06, 0, 0, 0, 2, 0, 0]);
    assert_eq!(bytes[29..36], [0x20, 0x00, 0x04, 0, 0, 0, 3]);
    assert_eq!(bytes[bytes.len() - 7..], [0x7F, 0x00, 0x04, 0, 0, 0, 9]);
    let others = [
        (Event::Load { w: 1, r: 2, q: 3, f: 4 }, vec![0x13, 0, 8, 0, 0, 0, 1, 1, 2, 3, 4]),
        (Event::Store { w: 1, q: 2, f: 3, r: 4 }, vec![0x14, 0, 8, 0, 0, 0, 1, 1, 2, 3, 4]),
        (Event::Move { w: 1, r: 2, q: 3 }, vec![0x11, 0, 7, 0, 0, 0, 1, 1, 2, 3]),
        (Event::Look { w: 1, r: 2, e: 3 }, vec![0x15, 0, 7, 0, 0, 0, 1, 1, 2, 3]),
        (Event::Post { w: 1, e: 2, r: 3 }, vec![0x16, 0, 7, 0, 0, 0, 1, 1, 2, 3]),
    ];
    others.into_iter().for_each(|(event, expected)| assert_eq!(fields(&[event]), expected));
}

#[test]
fn the_whole_case() {
    let bytes = whole_case();
    let replayed = replay(&bytes);
    let printed = "1 0 1\n2 0 0\n3 0 0\n4 0 0\n5 0 0\n6 0 0\n7 0 1\n8 0 0\n9 0 2\nend 1 1\n";
    assert_eq!(replayed.to_string(), printed);
    let mut pool = replayed.ending.unwrap();
    assert_eq!(pool.sizes(), SIZES);
    assert_eq!(pool.make(0, 0).map(Record::number), Ok(1));

    let mut lent = lent(SIZES);
    lent.tables.used.fill(7);
    lent.collector.phase = 9;
    let mut numbers = vec![9; answers_length(bytes.len()) + 1];
    assert_eq!(lent.trace(&bytes, &mut numbers), Ok(Whole { events: 9, free: 1 }));
    let answers: Vec<Answer> = answers_in(&numbers).take(9).collect();
    assert_eq!(answers, replayed.answers);
    assert!(numbers[18..].iter().all(|number| *number == 9));
    assert!(lent.is_sound());
}

/// "The sizes field with length 10 carries B at its end; length 8 means B = 0" (document 02, request 5).
#[test]
fn sizes_of_both_lengths() {
    let short = whole_case();
    let long = [&[0x01, 0, 10], &short[3..11], &[0, 0], &short[11..]].concat();
    assert_eq!(replay(&long), replay(&short));
    assert_eq!(Sizes::of_trace(&long), Sizes::of_trace(&short));

    let board = Sizes { b: 1, ..SIZES };
    let events = [MAKE, Event::Post { w: 0, e: 0, r: 0 }, DROP, Event::Look { w: 0, r: 0, e: 0 }];
    let replayed = replay(&trace(board, &events));
    assert_eq!(replayed.to_string(), "1 0 1\n2 0 0\n3 0 0\n4 0 1\nend 1 0\n");
    assert_eq!(replayed.ending.unwrap().sizes(), board);

    let mut other = long;
    other[2] = 9;
    assert_eq!(replay(&other).to_string(), "refused 8 0\n");
    other[2] = 10;
    other[12] = 17;
    assert_eq!(replay(&other).to_string(), "refused 1 0\n");
    assert_eq!(replay(&other[..12]).to_string(), "refused 9 0\n");
}

#[test]
fn a_refused_trace_says_why_and_where() {
    let mut bytes = whole_case();
    let stops = |bytes: &[u8]| {
        let stop = replay(bytes).ending.unwrap_err();
        (stop.refusal, stop.place, stop.events)
    };
    assert_eq!(stops(&[]), (Refusal::StopsShort, 0, 0));
    assert_eq!(stops(&bytes[11..]), (Refusal::WrongTag, 0, 0));
    assert_eq!(stops(&bytes[..bytes.len() - 1]), (Refusal::StopsShort, bytes.len() - 7, 9));
    bytes.push(0);
    assert_eq!(stops(&bytes), (Refusal::ExtraByte, bytes.len() - 1, 9));
    bytes.pop();
    *bytes.last_mut().unwrap() = 8;
    assert_eq!(stops(&bytes), (Refusal::WrongCount, bytes.len() - 7, 9));
    bytes[35] = 4;
    assert_eq!(stops(&bytes), (Refusal::WrongStep, 29, 2));
    bytes[13] = 7;
    assert_eq!(stops(&bytes), (Refusal::WrongLength, 11, 0));
    bytes[3] = 255;
    assert_eq!(stops(&bytes), (Refusal::WrongSize, 0, 0));
    assert_eq!(replay(&bytes).to_string(), "refused 1 0\n");

    let error: Box<dyn Error> = replay(&bytes).ending.unwrap_err().into();
    assert_eq!(
        error.to_string(),
        "at byte 0: a size is out of its range, or a lent table has another length"
    );
    assert_eq!(error.source().map(|source| source.to_string()), Some(Refusal::WrongSize.to_string()));
}

/// Record 1 leads to 2 and to 3. The first cycle counts both links, the second neither, and frees 2 and
/// 3; the third stays open.
fn two_cycles() -> Vec<u8> {
    let mut events: Vec<Event> = (0..3).map(|r| Event::Make { w: 0, r }).collect();
    events.extend([0, 1].map(|f| Event::Store { w: 0, q: 0, f, r: f + 1 }));
    events.extend([1, 2].map(|r| Event::Drop { w: 0, r }));
    events.extend([Event::Collect; 9]);
    events.extend([0, 1].map(|f| Event::Store { w: 0, q: 0, f, r: 1 }));
    events.extend([Event::Collect; 11 + 4]);
    trace(Sizes { n: 3, k: 2, w: 1, r: 3, b: 0 }, &events)
}

const CYCLES: [Cycle; 2] = [Cycle { taken: 2, freed: 0, net: 2 }, Cycle { taken: 2, freed: 2, net: -2 }];

/// "The net may be below nought, and prints with a minus sign" (document 02, request 7).
#[test]
fn the_cycles_of_a_trace() {
    let bytes = two_cycles();
    let whole = report(&bytes);
    assert_eq!(whole.cycles, CYCLES);
    let lines = "cycle 1 taken 2 freed 0 net 2\ncycle 2 taken 2 freed 2 net -2\n";
    assert_eq!(whole.to_string(), format!("{lines}end 2 2\n"));
    assert_eq!(whole.ending, replay(&bytes).ending);

    let cut = bytes.len() - 7;
    let refused = report(&bytes[..cut]);
    assert_eq!(refused.cycles, CYCLES);
    assert_eq!(refused.to_string(), format!("{lines}refused 9 {cut}\n"));
    assert_eq!(refused.ending, replay(&bytes[..cut]).ending);

    assert_eq!(report(&whole_case()).to_string(), "cycle 1 taken 0 freed 1 net 0\nend 1 1\n");
    assert_eq!(report(&[]).to_string(), "refused 9 0\n");
    assert_eq!(report(&trace(Sizes { n: 65, ..SIZES }, &[MAKE, Event::Collect])).to_string(), "end 64 0\n");
}

/// The numbers go in as far as there is room for all three of a cycle; what lies behind them stays.
#[test]
fn the_room_for_cycles() {
    let bytes = two_cycles();
    let sizes = Sizes::of_trace(&bytes).unwrap();
    let enough = cycles_length(bytes.len());
    assert!(enough >= 6);
    for room in 0..9 {
        let mut lent = lent(sizes);
        lent.tables.counts.fill(7);
        let mut numbers = vec![9; room];
        let whole = Reported { cycles: 2, ending: Ok(Whole { events: 33, free: 2 }) };
        assert_eq!(lent.report(&bytes, &mut numbers), whole);
        let put = (room / 3).min(2);
        assert!(cycles_in(&numbers[..3 * put]).eq(CYCLES.into_iter().take(put)));
        assert!(numbers[3 * put..].iter().all(|number| *number == 9));
        assert!(lent.is_sound());
    }
    let mut other = lent(SIZES);
    let before = other.clone();
    let stop = Stop { refusal: Refusal::WrongSize, place: 0, events: 0 };
    assert_eq!(other.report(&bytes, &mut [9; 6]), Reported { cycles: 0, ending: Err(stop) });
    assert_eq!(other, before);
}

/// Every cycle of the shortest kind has its room.
#[test]
fn the_shortest_cycles() {
    let bytes = trace(Sizes { n: 1, ..SIZES }, &[Event::Collect; 5 * 20]);
    let reported = report(&bytes);
    assert_eq!(reported.cycles, [Cycle { taken: 0, freed: 0, net: 0 }; 20]);
    assert_eq!(reported.ending.unwrap().collector().closed, 20);
}

#[test]
fn a_trace_takes_the_largest_sizes() {
    let bytes = trace(Sizes::LARGEST, &vec![MAKE; 1025]);
    let replayed = replay(&bytes);
    assert_eq!(replayed.answers[1023], Ok(Record::of_number(1024)));
    assert_eq!(replayed.answers[1024], Err(Refusal::NoneFree));
    assert_eq!(replayed.ending.unwrap().free_records(), 0);
}

/// The lines of a trace whose sizes the program `replay` refuses.
#[test]
fn a_trace_is_printed_whatever_its_sizes() {
    let replayed = replay(&trace(Sizes { n: 65, ..SIZES }, &[MAKE, Event::Collect]));
    assert_eq!(replayed.to_string(), "1 0 1\n2 0 0\nend 64 0\n");
}

#[test]
fn the_answers_of_every_number() {
    let each = std::iter::once(0).chain(Refusal::ALL.into_iter().map(Refusal::number));
    let numbers: Vec<u16> = each.flat_map(|number| [number, 0]).collect();
    let answers: Vec<Answer> = answers_in(&numbers).collect();
    let refusals = Refusal::ALL.into_iter().map(Err);
    assert!(answers.into_iter().eq(std::iter::once(Ok(None)).chain(refusals)));
}

/// A number that no call answers is not taken for done.
#[test]
#[should_panic(expected = "17 is no number that a call answers")]
fn a_number_above_16_is_no_answer() {
    answers_in(&[0, 1, 17, 1]).for_each(drop);
}

#[test]
fn tables_of_other_lengths_are_not_touched_by_a_trace() {
    let bytes = whole_case();
    let mut lent = lent(Sizes { n: 3, ..SIZES });
    let before = lent.clone();
    let stop = Stop { refusal: Refusal::WrongSize, place: 0, events: 0 };
    assert_eq!(lent.trace(&bytes, &mut []), Err(stop));
    assert_eq!(lent, before);
}

/// Tables of the same lengths may be those of another K and B: the sizes become the trace's.
#[test]
fn a_trace_brings_its_sizes() {
    let (laid_out, said) = (Sizes { k: 2, ..SIZES }, Sizes { b: 2, ..SIZES });
    let mut lent = lent(laid_out);
    assert_eq!(lent.trace(&trace(said, &[MAKE]), &mut []), Ok(Whole { events: 1, free: 1 }));
    assert_eq!((lent.sizes, lent.is_sound()), (said, true));
    let cut = &trace(laid_out, &[MAKE])[..15];
    assert_eq!(lent.trace(cut, &mut []).unwrap_err().place, 11);
    assert_eq!((lent.sizes, lent.is_sound()), (laid_out, true));
    let refused = trace(Sizes { n: 3, ..SIZES }, &[]);
    assert_eq!(lent.trace(&refused, &mut []).unwrap_err().refusal, Refusal::WrongSize);
    assert_eq!(lent.sizes, laid_out);
}

#[test]
fn many_events_are_as_one_after_another() {
    let events = [MAKE, MAKE, MAKE, DROP, Event::Load { w: 0, r: 0, q: 0, f: 0 }, Event::Collect];
    let bytes = fields(&events);
    let mut pool = Pool::new(SIZES).unwrap();
    let answers = pool.run(events);
    let numbers: Vec<u16> = answers.iter().map(|answer| answer.map_or_else(Refusal::number, |_| 0)).collect();
    assert_eq!(numbers, [0, 0, 5, 0, 4, 0]);

    let mut lent = lent(SIZES);
    let (mut step, mut room) = (0, [9; 13]);
    assert_eq!(lent.events(&bytes, &mut step, &mut room), Ok(6));
    assert_eq!((step, room[12]), (6, 9));
    assert!(answers_in(&room).eq(answers));
    assert_eq!((&lent.tables, lent.collector), (pool.tables(), pool.collector()));
}

/// A trace may be given piece by piece, with the step number of the piece before.
#[test]
fn many_events_go_on() {
    let bytes = fields(&[MAKE, DROP, Event::Collect]);
    let mut lent = lent(SIZES);
    let mut step = 0;
    assert_eq!(lent.events(&bytes[..9], &mut step, &mut []), Ok(1));
    assert_eq!(lent.events(&[], &mut step, &mut []), Ok(0));
    assert_eq!(lent.events(&bytes[9..], &mut step, &mut []), Ok(2));
    assert_eq!((step, lent.collector.phase), (3, 1));
}

#[test]
fn many_events_stop_at_what_is_no_event() {
    let mut lent = lent(SIZES);
    let mut bytes = fields(&[MAKE, DROP]);
    let stop = |refusal, place, events| Err(Stop { refusal, place, events });
    Field::End { count: 2 }.put(&mut bytes);
    let mut step = 0;
    assert_eq!(lent.events(&bytes, &mut step, &mut []), stop(Refusal::WrongTag, 18, 2));
    assert_eq!((step, lent.free_records()), (2, 1));
    *bytes.last_mut().unwrap() = 3;
    let mut step = 0;
    assert_eq!(lent.events(&bytes, &mut step, &mut []), stop(Refusal::WrongCount, 18, 2));
    assert_eq!(lent.events(&bytes, &mut step, &mut []), stop(Refusal::WrongStep, 0, 0));
    assert_eq!(lent.events(&bytes[..2], &mut step, &mut []), stop(Refusal::StopsShort, 0, 0));
    assert_eq!(lent.events(&[0x10, 0, 5], &mut step, &mut []), stop(Refusal::WrongLength, 0, 0));
    assert_eq!((step, lent.free_records()), (2, 0));
}

#[test]
fn many_events_on_wrong_tables_do_nothing() {
    let bytes = fields(&[MAKE]);
    let mut lent = lent(SIZES);
    lent.tables.counts[0] = 1;
    let (before, mut step, mut room) = (lent.clone(), 0, [9; 2]);
    let stop = |refusal| Err(Stop { refusal, place: 0, events: 0 });
    assert_eq!(lent.events(&bytes, &mut step, &mut room), stop(Refusal::NotSound));
    assert_eq!((&lent, step, room), (&before, 0, [9; 2]));
    lent.sizes.n = 3;
    assert_eq!(lent.events(&bytes, &mut step, &mut room), stop(Refusal::WrongSize));
}
