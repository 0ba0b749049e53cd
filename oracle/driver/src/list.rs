//! The fixed list: some hundreds of small cases with the listed Rust's answers.

use crate::case::{Answer, Call, Case};
use crate::float::Real;
use crate::make::{make, Size};
use crate::{definition, listed};
use std::collections::BTreeMap;

const SEED: u64 = 7;
const LONGEST_LINE: usize = 640;
/// Counts and indices near the largest word are left to the driver.
const LARGEST_COUNT: usize = 1 << 20;
const PLACES: u64 = 400_000;

/// How a case counts towards the list.
#[derive(PartialEq, Eq, PartialOrd, Ord)]
enum Sort {
    Written,
    Empty,
    Refused(u8),
}

/// How many cases of a sort each call has in f64 and in f32.
fn quota(call: Call, sort: &Sort, width: usize) -> usize {
    match (sort, width) {
        (Sort::Written, 64) => {
            if call.exported() {
                5
            } else {
                2
            }
        }
        (Sort::Written, _) => {
            if call.exported() {
                3
            } else {
                1
            }
        }
        (Sort::Empty, 64) => 1,
        (Sort::Empty, _) => 0,
        // A refusal is the same in both; they take turns.
        (Sort::Refused(number), 64) => usize::from(number % 2 == 1),
        (Sort::Refused(number), _) => usize::from(number % 2 == 0),
    }
}

/// The lines of the list: the edges by hand, then what the case maker finds, call after call.
pub fn lines() -> Vec<String> {
    let mut lines: Vec<String> = edges::<f64>().iter().map(line).collect();
    lines.extend(edges::<f32>().iter().map(line));
    lines.extend(found());
    lines
}

fn found() -> Vec<String> {
    let mut kept: BTreeMap<(Call, usize, Sort), Vec<String>> = BTreeMap::new();
    for place in 0..PLACES {
        take(&mut kept, &make::<f64>(SEED, place, Size::Small));
        take(&mut kept, &make::<f32>(SEED, place, Size::Small));
    }
    kept.into_values().flatten().collect()
}

fn take<T: Real>(kept: &mut BTreeMap<(Call, usize, Sort), Vec<String>>, case: &Case<T>) {
    let defined = definition::answer(case);
    let sort = match &defined {
        Answer::Accepted(bits, _)
            if !bits.is_empty() && case.operands.iter().all(|o| o.rows > 0) =>
        {
            Sort::Written
        }
        Answer::Accepted(..) => Sort::Empty,
        Answer::Refused(number) => Sort::Refused(*number),
        Answer::Absent => return,
    };
    let room = quota(case.call, &sort, T::WIDTH);
    let lines = kept.entry((case.call, T::WIDTH, sort)).or_default();
    let mut places = case.counts.iter().chain(&case.list).chain(&case.sources);
    if lines.len() >= room || places.any(|place| *place > LARGEST_COUNT) {
        return;
    }
    let line = line(case);
    if alike(case) && line.len() <= LONGEST_LINE && !lines.contains(&line) {
        lines.push(line);
    }
}

fn line<T: Real>(case: &Case<T>) -> String {
    format!(
        "{}\t{}",
        case.fields(),
        definition::answer(case).fields::<T>()
    )
}

/// Whether the Rust answers as defined: only such cases stand in the list.
fn alike<T: Real>(case: &Case<T>) -> bool {
    let (rust, defined) = (&listed::answers(case)[0], definition::answer(case));
    *rust == defined || matches!((rust, &defined), (Answer::Refused(_), Answer::Refused(_)))
}

/// Cases at the edges of the definitions.
fn edges<T: Real>() -> Vec<Case<T>> {
    use std::f64::{INFINITY, NAN};
    let cases = vec![
        // b is zero: y is not read, whichever zero it is.
        Case::new(Call::Axpy)
            .factors(&[2.0, 0.0])
            .vector(1, &[3.0, -0.0])
            .vector(1, &[NAN, INFINITY]),
        Case::new(Call::Axpy)
            .factors(&[2.0, -0.0])
            .vector(1, &[3.0, -0.0])
            .vector(1, &[NAN, INFINITY]),
        Case::new(Call::Axpy)
            .factors(&[0.0, 1.0])
            .vector(1, &[INFINITY, 1.0])
            .vector(1, &[1.0, -0.0]),
        // Two lanes into six.
        Case::new(Call::CopyFrom)
            .vector(2, &[1.0, 2.0])
            .vector(6, &[0.0; 6]),
        Case::new(Call::BatchedAxpy)
            .factors(&[-0.0])
            .vector(2, &[2.0, 3.0])
            .vector(1, &[5.0])
            .vector(2, &[NAN, NAN]),
        // No columns: b·y, or zeros.
        Case::new(Call::Gemv)
            .factors(&[1.0, 3.0])
            .table(2, 0, 1, &[])
            .table(0, 1, 1, &[])
            .vector(1, &[1.0, -2.0]),
        Case::new(Call::Gemv)
            .factors(&[1.0, -0.0])
            .table(2, 0, 1, &[])
            .table(0, 1, 1, &[])
            .vector(1, &[NAN, -2.0]),
        Case::new(Call::Gemv)
            .factors(&[0.1, 0.0])
            .table(1, 1, 1, &[3.0])
            .vector(1, &[0.7])
            .vector(1, &[9.0]),
        Case::new(Call::Gemv)
            .factors(&[1.0, 0.0])
            .table(1, 1, 1, &[-0.0])
            .vector(1, &[1.0])
            .vector(1, &[9.0]),
        Case::new(Call::GemvCols)
            .counts(&[2, 2])
            .factors(&[1.0, 0.5])
            .table(1, 2, 1, &[3.0, 5.0])
            .vector(1, &[8.0]),
        Case::new(Call::GemvCols)
            .counts(&[0, 2])
            .factors(&[1.0, 0.0])
            .numbers(&[1.0, 1.0, NAN])
            .table(1, 2, 1, &[3.0, 5.0])
            .vector(1, &[NAN]),
        Case::new(Call::GerCols)
            .counts(&[1, 2])
            .factors(&[1.0])
            .numbers(&[0.0])
            .vector(1, &[INFINITY])
            .table(1, 2, 1, &[1.0, 1.0]),
        // The small matrix is read by columns.
        Case::new(Call::MulColsBy)
            .counts(&[2])
            .numbers(&[1.0, 3.0, 2.0, 4.0])
            .work()
            .table(1, 2, 1, &[5.0, 7.0]),
        Case::new(Call::MulColsByTranspose)
            .counts(&[2])
            .numbers(&[1.0, 2.0, 3.0, 4.0])
            .work()
            .table(1, 2, 1, &[5.0, 7.0]),
        Case::new(Call::MulColsBy)
            .counts(&[0])
            .work()
            .table(1, 2, 1, &[5.0, -0.0]),
        Case::new(Call::MulColsBy)
            .counts(&[1])
            .numbers(&[1.0])
            .work()
            .table(1, 1, 1, &[-0.0]),
        Case::new(Call::UpdateBackwardDiff)
            .counts(&[0])
            .vector(1, &[7.0])
            .table(1, 3, 1, &[2.0, 3.0, 5.0]),
        // The order of an update may pass 5; that of its transpose may not.
        Case::new(Call::UpdateBackwardDiff)
            .counts(&[6])
            .vector(1, &[1.0])
            .table(1, 9, 1, &[1.0; 9]),
        Case::new(Call::UpdateBackwardDiffTranspose)
            .counts(&[6])
            .work()
            .table(1, 9, 1, &[1.0; 9])
            .vector(1, &[1.0]),
        Case::new(Call::UpdateBackwardDiffTranspose)
            .counts(&[0])
            .work()
            .table(1, 3, 1, &[1.0, 10.0, 100.0])
            .vector(1, &[NAN]),
        Case::new(Call::UpdateBackwardDiffTranspose)
            .counts(&[0])
            .work()
            .table(1, 3, 1, &[INFINITY, 0.0, 0.0])
            .vector(1, &[0.0]),
        Case::new(Call::UpdateBackwardDiffTranspose)
            .counts(&[0])
            .work()
            .table(1, 3, 1, &[-0.0, -0.0, 0.0])
            .vector(1, &[0.0]),
        // A one-lane table goes into a d of two lanes, and two into one do not.
        Case::new(Call::UpdateBackwardDiffTranspose)
            .counts(&[0])
            .work()
            .table(1, 3, 1, &[1.0, 10.0, 100.0])
            .vector(2, &[0.0, 0.0]),
        Case::new(Call::UpdateBackwardDiffTranspose)
            .counts(&[0])
            .work()
            .table(1, 3, 2, &[1.0; 6])
            .vector(1, &[0.0]),
        Case::new(Call::Gather)
            .list(&[1, 1])
            .vector(1, &[10.0, 20.0])
            .vector(1, &[0.0, 0.0]),
        Case::new(Call::Scatter)
            .list(&[0, 0])
            .vector(1, &[10.0, 20.0])
            .vector(1, &[0.0, 5.0]),
        // No rows: 0/0 of one lane, zero of several; a lane that is not a number is passed over.
        Case::new(Call::SquaredNorm)
            .factors(&[0.0])
            .table(0, 1, 1, &[])
            .table(0, 1, 1, &[])
            .table(0, 1, 1, &[]),
        Case::new(Call::SquaredNorm)
            .factors(&[0.0])
            .table(0, 1, 2, &[])
            .table(0, 1, 1, &[])
            .table(0, 1, 1, &[]),
        Case::new(Call::SquaredNorm)
            .factors(&[0.5])
            .vector(2, &[NAN, 2.0])
            .vector(1, &[-1.0])
            .vector(1, &[0.5]),
        Case::new(Call::RootFinding)
            .vector(1, &[1.0, -1.0, 2.0])
            .vector(1, &[-1.0, 3.0, 0.0]),
        Case::new(Call::RootFinding)
            .vector(1, &[1.0])
            .vector(1, &[-3.0]),
        Case::new(Call::RootFinding)
            .vector(2, &[1.0, 1.0])
            .vector(2, &[-1.0, -3.0]),
        Case::new(Call::RootFinding)
            .vector(1, &[-1.0, 1.0])
            .vector(1, &[INFINITY, NAN]),
        Case::new(Call::RootFinding)
            .vector(1, &[1.0, 2.0])
            .vector(1, &[-0.0, 2.0]),
    ];
    assert!(
        cases.iter().all(alike),
        "the Rust answers the edges as defined"
    );
    cases
}
