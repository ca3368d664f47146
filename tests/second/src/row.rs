//! A whole trace as a row of the kind that the proved rules compute: its sizes, its events, what
//! this program answers to each and what it prints at the end, as a declaration of the row and one
//! that claims that the rules say the same.

use crate::event::{happen, Event};
use crate::pool::{Pool, Record, Sizes};
use crate::trace::{Field, Reader};

/// The two declarations, or none where the trace is refused or has more events than `most`.
pub fn row(name: &str, trace: &[u8], most: usize) -> Option<String> {
    let (sizes, events) = whole(trace)?;
    if events.len() > most {
        return None;
    }
    let mut pool = Pool::fresh(sizes);
    let replies: Vec<String> = events.iter().map(|event| reply(&mut pool, *event)).collect();
    let said: Vec<String> = events.iter().map(said).collect();
    let Sizes { n, k, w, r, b } = sizes;
    Some(format!(
        "{name} : Row\n{name} =\n    row (sizes_and_board {n} {k} {w} {r} {b})\n    ({})\n    ({})\n    (end {} {} ∷ [])\n\n\
         {name}-holds : T (computes {name})\nunfolding computes {name}\n{name}-holds = tt\n",
        list(&said),
        list(&replies),
        pool.free_records(),
        pool.closed,
    ))
}

/// The sizes and the events of a trace that no field refuses.
fn whole(trace: &[u8]) -> Option<(Sizes, Vec<Event>)> {
    let mut reader = Reader::new(trace);
    let (mut sizes, mut events) = (None, Vec::new());
    while let Some(field) = reader.next_field().ok()? {
        match field {
            Field::Sizes { sizes: read, .. } => sizes = Some(read),
            Field::Event { event, .. } => events.push(event),
            Field::End { .. } => {}
        }
    }
    Some((sizes?, events))
}

/// An event as the rules write it.
fn said(event: &Event) -> String {
    let numbers: String = event.numbers().iter().map(|number| format!(" {number}")).collect();
    format!("{:?}{numbers}", event.kind())
}

/// The number and the value of the answer.
fn reply(pool: &mut Pool, event: Event) -> String {
    let answer = happen(pool, event);
    format!("({}, {})", answer.number, answer.value.map_or(0, |Record(number)| number))
}

fn list(items: &[String]) -> String {
    items.iter().map(|item| format!("{item} ∷ ")).collect::<String>() + "[]"
}
