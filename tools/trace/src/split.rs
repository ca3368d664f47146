//! A whole trace, dealt out into parts: "Every worker, and the collector, now records its own trace"
//! (request 3 of document 02).

use second::trace::{in_range, Field, Reader, Refusal};

/// A part in bytes, and whose it is.
#[derive(Clone, Debug, PartialEq, Eq)]
pub struct Part {
    pub name: String,
    pub bytes: Vec<u8>,
}

/// One part for each worker of the pool, and the collector's. What names no worker of the pool stands
/// in the collector's. The trace may have any sizes that document 01 has; one that is not whole is
/// refused as a replay refuses it.
pub fn split(trace: &[u8]) -> Result<Vec<Part>, Refusal> {
    let mut reader = Reader::taking(trace, &in_range);
    let mut parts = Vec::new();
    let mut counts = Vec::new();
    loop {
        let (start, _) = reader.at();
        let field = reader.next_field()?;
        let bytes = &trace[start..reader.at().0];
        match field {
            Some(Field::Sizes { sizes, .. }) => {
                let workers = (0..sizes.w).map(|w| format!("worker-{w}"));
                let names = workers.chain(["collector".into()]);
                parts = names.map(|name| Part { name, bytes: bytes.to_vec() }).collect::<Vec<_>>();
                counts = vec![0; parts.len()];
            }
            Some(Field::Event { event, .. }) => {
                let collector = parts.len() - 1;
                let worker = event.numbers().first().map(|w| usize::from(*w));
                let whose = worker.filter(|w| *w < collector).unwrap_or(collector);
                parts[whose].bytes.extend(bytes);
                counts[whose] += 1;
            }
            // A byte after it still refuses the trace.
            Some(Field::End { .. }) => {}
            None => break,
        }
    }
    for (part, count) in parts.iter_mut().zip(counts) {
        part.bytes.extend(Field::End { count }.bytes());
    }
    Ok(parts)
}

#[cfg(test)]
mod tests {
    use second::join::join;
    use second::maker::make;

    use super::*;
    use crate::text::write;

    fn joined(parts: &[Part]) -> Result<Vec<u8>, Refusal> {
        let lengths: Vec<u64> = parts.iter().map(|part| part.bytes.len() as u64).collect();
        let slice: Vec<u8> = parts.iter().flat_map(|part| part.bytes.clone()).collect();
        join(&slice, &lengths, slice.len())
    }

    #[test]
    fn each_event_goes_to_its_worker() {
        let text = "sizes 2 1 2 1 1\nmake 1 0\npost 1 0 0\ncollect\nlook 0 0 0\nmake 2 0\nend";
        let parts = split(&write(text).unwrap()).unwrap();
        let expected = [
            ("worker-0", "sizes 2 1 2 1 1\n4 look 0 0 0\nend 1"),
            ("worker-1", "sizes 2 1 2 1 1\n1 make 1 0\n2 post 1 0 0\nend 2"),
            ("collector", "sizes 2 1 2 1 1\n3 collect\n5 make 2 0\nend 2"),
        ];
        let expected = expected.map(|(name, text)| Part { name: name.into(), bytes: write(text).unwrap() });
        assert_eq!(parts, expected);
    }

    /// What is dealt out is joined to the same trace again, and what is no whole trace is not dealt
    /// out.
    #[test]
    fn made_traces_come_back_from_their_parts() {
        let (mut back, mut refused) = (0, 0);
        for seed in 0..400 {
            let trace = make(seed).trace;
            match split(&trace) {
                Ok(parts) => {
                    assert_eq!(joined(&parts).as_ref(), Ok(&trace), "seed {seed}");
                    back += 1;
                }
                Err(_) => refused += 1,
            }
        }
        assert!(back > 200 && refused > 20, "{back} came back, {refused} were refused");
    }

    #[test]
    fn the_largest_sizes_make_nine_parts() {
        let trace = write("sizes 1024 8 8 16 16\nmake 7 0\nend").unwrap();
        assert_eq!(split(&trace).unwrap().len(), 9);
        for beyond in ["sizes 1024 8 9 16 16\nend", "sizes 1024 8 8 16 17\nend"] {
            let refused = split(&write(beyond).unwrap());
            assert_eq!(refused, Err(Refusal { number: 1, offset: 0 }));
        }
    }
}
