//! Published values: the axpy of reference BLAS's own test, programs DBLAT1 and SBLAT1 of LAPACK
//! 3.11.0 (BLAS/TESTING). The test runs 0, 1, 2 and 4 entries with four pairs of increments, and
//! takes an entry where its distance from the published one, times 2^-10, is at most 1.17 times
//! the distance of 1 to the next number.

use crate::case::{Answer, Call, Case, Operand};
use crate::float::{hex, Real};
use crate::listed;

const FACTOR: f64 = 0.3;
const X: [f64; 7] = [0.6, 0.1, -0.5, 0.8, 0.9, -0.3, -0.4];
const Y: [f64; 7] = [0.5, -0.9, 0.3, 0.7, -0.6, 0.2, 0.8];
const COUNTS: [usize; 4] = [0, 1, 2, 4];
const INCREMENTS: [(isize, isize); 4] = [(1, 1), (2, -2), (-2, 1), (-1, -2)];

/// y afterwards, as far as the test looks, for each pair of increments and each count.
const PUBLISHED: [[&[f64]; 4]; 4] = [
    [&[0.5], &[0.68], &[0.68, -0.87], &[0.68, -0.87, 0.15, 0.94]],
    [
        &[0.5],
        &[0.68],
        &[0.35, -0.9, 0.48],
        &[0.38, -0.9, 0.57, 0.7, -0.75, 0.2, 0.98],
    ],
    [&[0.5], &[0.68], &[0.35, -0.72], &[0.38, -0.63, 0.15, 0.88]],
    [
        &[0.5],
        &[0.68],
        &[0.68, -0.9, 0.33],
        &[0.68, -0.9, 0.33, 0.7, -0.75, 0.2, 1.04],
    ],
];

/// The places that `count` entries with an increment take, in order.
fn places(count: usize, increment: isize) -> Vec<usize> {
    let step = increment.unsigned_abs();
    let forward = (0..count).map(|i| i * step);
    if increment < 0 {
        forward.rev().collect()
    } else {
        forward.collect()
    }
}

/// Each run of the test as a line of the list, the entries that the increments select side by
/// side, with `published` and the published entries at its end.
pub fn lines() -> Vec<String> {
    let mut lines = vec![];
    for (increments, published) in INCREMENTS.iter().zip(&PUBLISHED) {
        for (count, published) in COUNTS.iter().zip(published) {
            lines.push(line::<f64>(*count, *increments, published));
            lines.push(line::<f32>(*count, *increments, published));
        }
    }
    lines
}

fn line<T: Real>(count: usize, (x_step, y_step): (isize, isize), published: &[f64]) -> String {
    let (from, to) = (places(count, x_step), places(count, y_step));
    let vector = |data: Vec<T>| Operand {
        rows: count,
        cols: 1,
        lanes: 1,
        col: 0,
        data,
    };
    let mut case = Case::new(Call::Axpy);
    case.factors = vec![T::of_f64(FACTOR), T::one()];
    case.operands = vec![
        vector(from.iter().map(|i| T::of_f64(X[*i])).collect()),
        vector(to.iter().map(|i| T::of_f64(Y[*i])).collect()),
    ];
    // What the increments pass over is published as it was.
    for (i, value) in published.iter().enumerate() {
        assert!(
            to.contains(&i) || *value == Y[i],
            "an entry passed over moved"
        );
    }
    let expected: Vec<T> = to.iter().map(|i| T::of_f64(published[*i])).collect();
    let rust = listed::answers(&case).remove(0);
    assert!(near(&rust, &expected), "the Rust fails the published test");
    let mut line = format!(
        "{}\t{}\tpublished\t{count}",
        case.fields(),
        rust.fields::<T>()
    );
    for value in expected {
        line = line + "\t" + &hex(value);
    }
    line
}

/// The test's own measure.
fn near<T: Real>(answer: &Answer, expected: &[T]) -> bool {
    let Answer::Accepted(bits, _) = answer else {
        return false;
    };
    let far = T::of_f64(1.17) * T::EPSILON;
    let scale = T::of_f64(9.765625e-4);
    let mut pairs = bits.iter().zip(expected);
    bits.len() == expected.len()
        && pairs.all(|(b, e)| {
            let distance = scale * (T::of_bits(*b) - *e);
            distance <= far && -distance <= far
        })
}
