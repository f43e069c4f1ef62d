//! Medians and best of many batches, the ones to be compared taking turns.

use std::time::Instant;

/// A batch takes about this long, or one run. It is short, so that other work
/// on the machine falls into few of them.
const BATCH_NS: f64 = 1e5;

/// Something to be timed, of which a run does so many.
pub struct Timed<'a> {
    run: Box<dyn FnMut() + 'a>,
    each: usize,
}

impl<'a> Timed<'a> {
    pub fn new(run: impl FnMut() + 'a) -> Timed<'a> {
        Timed::many(1, run)
    }

    pub fn many(each: usize, run: impl FnMut() + 'a) -> Timed<'a> {
        Timed { run: Box::new(run), each }
    }

    /// Nanoseconds for one of `count` runs.
    fn batch(&mut self, count: usize) -> f64 {
        let start = Instant::now();
        for _ in 0..count {
            (self.run)();
        }
        start.elapsed().as_nanos() as f64 / count as f64
    }

    /// How many runs fill a batch, by the best of some: an interrupted one would
    /// say too few. This warms up too.
    fn count(&mut self) -> usize {
        let mut count = 1;
        loop {
            let each = (0..5).map(|_| self.batch(count)).fold(f64::INFINITY, f64::min).max(1.0);
            let wanted = (BATCH_NS / each) as usize + 1;
            if wanted <= count * 2 {
                return wanted;
            }
            count = wanted.min(count * 20);
        }
    }
}

/// Nanoseconds, over many batches.
#[derive(Clone, Copy)]
pub struct Time {
    pub median: f64,
    pub best: f64,
}

/// The time of each, over `rounds` batches.
pub fn times(timed: &mut [Timed], rounds: usize) -> Vec<Time> {
    let counts: Vec<usize> = timed.iter_mut().map(Timed::count).collect();
    let mut found = vec![Vec::new(); timed.len()];
    for _ in 0..rounds {
        for ((one, count), times) in timed.iter_mut().zip(&counts).zip(&mut found) {
            times.push(one.batch(*count) / one.each as f64);
        }
    }
    found.into_iter().map(of_batches).collect()
}

fn of_batches(mut batches: Vec<f64>) -> Time {
    batches.sort_by(f64::total_cmp);
    Time { median: batches[batches.len() / 2], best: batches[0] }
}
