//! The best time of each of some rivals, which take turns, so that what else the machine does falls
//! on all of them. The best of many turns is the one that was least disturbed.

use std::time::Instant;

/// The best seconds of each rival in so many turns.
pub fn best(turns: usize, rivals: &mut [&mut dyn FnMut()]) -> Vec<f64> {
    let mut best = vec![f64::INFINITY; rivals.len()];
    for _ in 0..turns {
        for (rival, best) in rivals.iter_mut().zip(&mut best) {
            let start = Instant::now();
            rival();
            *best = best.min(start.elapsed().as_secs_f64());
        }
    }
    best
}
