//! Rounds of several sides, taking turns.

use std::hint::black_box;
use std::time::Instant;

/// Who does the work.
#[derive(Clone, Copy, PartialEq, Debug)]
pub enum Side {
    Konsjift,
    Rust,
    Plain,
    OpenBlas,
    Reference,
}

impl Side {
    pub const ALL: [Side; 5] = [
        Side::Konsjift,
        Side::Rust,
        Side::Plain,
        Side::OpenBlas,
        Side::Reference,
    ];

    pub fn name(self) -> &'static str {
        match self {
            Side::Konsjift => "konsjift",
            Side::Rust => "the Rust",
            Side::Plain => "plain loops",
            Side::OpenBlas => "OpenBLAS",
            Side::Reference => "reference BLAS",
        }
    }
}

/// Work that is done as often as is said.
pub type Work = Box<dyn FnMut(usize)>;

/// Does `step` on a state of its own, over and over; the compiler may know neither.
pub fn work<S: 'static>(mut state: S, step: impl Fn(&mut S) + 'static) -> Work {
    Box::new(move |times| {
        for _ in 0..times {
            step(black_box(&mut state));
        }
    })
}

/// One row of the table: a call at a size, by several sides.
pub struct Row {
    pub call: &'static str,
    pub rows: usize,
    pub lanes: usize,
    pub sides: Vec<(Side, Work)>,
}

/// What a row took: of each side the nanoseconds of one call, and how many times as long as that
/// the first side took in the same round; medians of all rounds.
pub struct Taken {
    pub call: &'static str,
    pub rows: usize,
    pub lanes: usize,
    pub sides: Vec<(Side, f64, f64)>,
}

impl Taken {
    pub fn of(&self, side: Side) -> Option<(f64, f64)> {
        let found = self.sides.iter().find(|taken| taken.0 == side);
        found.map(|taken| (taken.1, taken.2))
    }
}

fn median(mut values: Vec<f64>) -> f64 {
    values.sort_by(f64::total_cmp);
    values[values.len() / 2]
}

fn nanoseconds(work: &mut Work, times: usize) -> f64 {
    let start = Instant::now();
    work(times);
    start.elapsed().as_nanos() as f64 / times as f64
}

/// Times the row: batches of about `batch` nanoseconds, the sides in turn in every round.
pub fn take(mut row: Row, rounds: usize, batch: f64) -> Taken {
    let mut times = vec![];
    for (_, work) in &mut row.sides {
        work(2);
        let once = nanoseconds(work, 1).max(1.0);
        // Once more, now that a batch's length is known within reason.
        let guess = (batch / 10.0 / once).ceil() as usize;
        let once = nanoseconds(work, guess).max(0.1);
        times.push(((batch / once).ceil() as usize).max(1));
    }
    let mut taken: Vec<Vec<f64>> = vec![vec![]; row.sides.len()];
    for round in 0..rounds {
        for turn in 0..row.sides.len() {
            // Nobody is always first, nor always after the same other.
            let k = if round % 2 == 0 {
                (turn + round / 2) % row.sides.len()
            } else {
                row.sides.len() - 1 - (turn + round / 2) % row.sides.len()
            };
            taken[k].push(nanoseconds(&mut row.sides[k].1, times[k]));
        }
    }
    let first = taken[0].clone();
    let sides = row.sides.iter().zip(taken).map(|((side, _), taken)| {
        let ratios = first.iter().zip(&taken).map(|(first, this)| first / this);
        let ratio = median(ratios.collect());
        (*side, median(taken), ratio)
    });
    Taken {
        call: row.call,
        rows: row.rows,
        lanes: row.lanes,
        sides: sides.collect(),
    }
}
