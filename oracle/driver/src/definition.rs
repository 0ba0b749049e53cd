//! The calls by their definitions, in plain loops: the number of the first refusal that fits, and
//! otherwise every entry. Written for reading, not for speed; neither side shares code with it.

use crate::case::{Answer, Call, Case, Kind, Operand};
use crate::float::Real;

const MOST_ROWS: usize = 65_536;
const MOST_COLS: usize = 1_024;
const MOST_LANES: usize = 4_096;
const MOST_COLUMNS_NAMED: usize = 8;
const HIGHEST_ORDER: usize = 5;
const WORK: usize = 8;

pub fn answer<T: Real>(case: &Case<T>) -> Answer {
    match verdict(case) {
        0 => match case.call {
            Call::SquaredNorm => Answer::Accepted(vec![squared_norm(case).bits()], None),
            Call::RootFinding => {
                let (found, fraction, row) = roots(case, 0);
                Answer::Accepted(vec![fraction.bits()], Some((found, row)))
            }
            _ => {
                let mut done = case.clone();
                carry_out(&mut done);
                Answer::Accepted(done.written(), None)
            }
        },
        number => Answer::Refused(number),
    }
}

/// The lane that lane b of n reads in a source of s.
fn lane_for(b: usize, s: usize, n: usize) -> usize {
    b * s / n
}

fn broadcasts(s: usize, n: usize) -> bool {
    s == n || s == 1 || n % s == 0
}

// ---- The numbers ----

/// The number of the first refusal that fits, or 0. Each number is tested over all operands
/// before the next one.
pub fn verdict<T: Real>(case: &Case<T>) -> u8 {
    let all = &case.operands;
    let tests: [(u8, &dyn Fn() -> bool); 11] = [
        (1, &|| all.iter().any(|o| o.lanes == 0)),
        (2, &|| all.iter().any(too_large)),
        (3, &|| {
            all.iter().any(|o| !o.fits()) || case.call.works() && case.work < WORK
        }),
        (4, &|| no_column(case)),
        (5, &|| too_many(case)),
        (6, &|| wrong_numbers(case)),
        (7, &|| counts_differ(case)),
        (8, &|| lanes_differ(case)),
        (9, &|| wrong_list(case)),
        (10, &|| outside(case)),
        (11, &|| {
            case.call == Call::RootFinding
                && (1..all[0].lanes).any(|b| roots(case, b) != roots(case, 0))
        }),
    ];
    let first = tests.into_iter().find(|(_, fits)| fits());
    first.map_or(0, |(number, _)| number)
}

fn too_large<T>(o: &Operand<T>) -> bool {
    o.rows > MOST_ROWS || o.cols > MOST_COLS || o.lanes > MOST_LANES
}

/// A column or the end of a range is outside its table, or a range starts after its end.
fn no_column<T: Real>(case: &Case<T>) -> bool {
    let kinds = case.call.operands();
    let mut operands = case.operands.iter().zip(kinds);
    if operands.any(|(o, kind)| *kind == Kind::Vector && o.col >= o.cols) {
        return true;
    }
    let Some(table) = case
        .operands
        .iter()
        .zip(kinds)
        .find(|(_, k)| **k == Kind::Table)
    else {
        return false;
    };
    let cols = table.0.cols;
    match (case.call, &case.counts[..]) {
        (Call::GemvCols | Call::GerCols, [start, end]) => *end > cols || start > end,
        (Call::MulColsBy | Call::MulColsByTranspose, [k]) => *k > cols,
        (Call::UpdateBackwardDiff | Call::UpdateBackwardDiffTranspose, [order]) => {
            order.checked_add(2).is_none_or(|last| last >= cols)
        }
        (Call::SetColumn | Call::AddColumnToVector, [j]) => *j >= cols,
        _ => false,
    }
}

fn too_many<T: Real>(case: &Case<T>) -> bool {
    match (case.call, &case.counts[..]) {
        (Call::GemvCols | Call::GerCols, [start, end]) => end - start > MOST_COLUMNS_NAMED,
        (Call::MulColsBy | Call::MulColsByTranspose, [k]) => *k > MOST_COLUMNS_NAMED,
        (Call::UpdateBackwardDiffTranspose, [order]) => *order > HIGHEST_ORDER,
        _ => false,
    }
}

fn wrong_numbers<T: Real>(case: &Case<T>) -> bool {
    let held = case.numbers.len();
    match (case.call, &case.counts[..]) {
        (Call::GemvCols | Call::GerCols, [start, end]) => held < end - start,
        (Call::MulColsBy | Call::MulColsByTranspose, [k]) => held != k * k,
        _ => false,
    }
}

fn counts_differ<T: Real>(case: &Case<T>) -> bool {
    let same_shape = |x: &Operand<T>, y: &Operand<T>| x.rows == y.rows && x.cols == y.cols;
    match (case.call, &case.operands[..]) {
        (Call::BatchedAxpy, [a, x, y]) => a.rows != 1 || x.rows != y.rows,
        (Call::Gemv, [d, x, y]) => d.rows != y.rows || x.rows != d.cols,
        (Call::SquaredNorm, [x, y, atol]) => y.rows != x.rows || atol.rows != x.rows,
        (Call::ScaleAddAndAssign, [x, y, d]) => !same_shape(x, d) || !same_shape(y, d),
        (
            Call::TableCopyFrom | Call::TableAddAssign | Call::TableSubAssign | Call::TableSubInto,
            [x, d],
        ) => !same_shape(x, d),
        (Call::FromDiagonal, [v, d]) => d.rows != v.rows || d.cols != v.rows,
        (
            Call::Gather
            | Call::Scatter
            | Call::CopyFromIndices
            | Call::TableGather
            | Call::SetDataWithIndices,
            _,
        ) => false,
        (_, [x, y]) => x.rows != y.rows,
        _ => false,
    }
}

fn lanes_differ<T: Real>(case: &Case<T>) -> bool {
    match (case.call, &case.operands[..]) {
        (Call::BatchedAxpy, [a, x, y]) => a.lanes != y.lanes || !broadcasts(x.lanes, y.lanes),
        // What is read goes over the lanes of x and of g0, which nothing is written to.
        (Call::SquaredNorm, [x, y, atol]) => {
            !broadcasts(y.lanes, x.lanes) || !broadcasts(atol.lanes, x.lanes)
        }
        (Call::RootFinding, [g0, g1]) => !broadcasts(g1.lanes, g0.lanes),
        (Call::AddColumnsToBatchedVector, [d, v]) => v.lanes != d.lanes * d.cols,
        (Call::FromDiagonal | Call::ResizeCols, [x, d]) => x.lanes != d.lanes,
        (_, [x, y]) => !broadcasts(x.lanes, y.lanes),
        (_, [x, y, z]) => !broadcasts(x.lanes, z.lanes) || !broadcasts(y.lanes, z.lanes),
        _ => false,
    }
}

fn wrong_list<T: Real>(case: &Case<T>) -> bool {
    match (case.call, &case.operands[..]) {
        (Call::Gather, [_, y]) => case.list.len() != y.rows,
        (Call::Scatter, [x, _]) => case.list.len() != x.rows,
        _ => false,
    }
}

fn outside<T: Real>(case: &Case<T>) -> bool {
    let past = |end: usize| case.list.iter().any(|&i| i >= end);
    match (case.call, &case.operands[..]) {
        (Call::Gather, [x, _]) => past(x.rows),
        (Call::Scatter, [_, y]) => past(y.rows),
        (Call::CopyFromIndices, [x, y]) => past(x.rows.min(y.rows)),
        (Call::AssignAtIndices, [y]) => past(y.rows),
        (Call::FillIndex, [y]) => case.counts[0] >= y.rows,
        (Call::TableGather, [x, d]) => past(x.rows * x.cols) || case.list.len() > d.rows * d.cols,
        (Call::SetDataWithIndices, [v, d]) => {
            let mut pairs = case.list.iter().zip(&case.sources);
            pairs.any(|(&to, &from)| to >= d.rows * d.cols || from >= v.rows)
        }
        _ => false,
    }
}

// ---- The entries ----

/// a·x + b·y, and a·x alone where b is zero.
fn blend<T: Real>(a: T, x: T, b: T, y: T) -> T {
    if b == T::zero() {
        a * x
    } else {
        a * x + b * y
    }
}

/// The sum over columns `from` to `to` − 1 of (a·column)·x, by axpy's rule for b: an entry of gemv.
fn combined<T: Real>(a: T, entries: &[(T, T)], b: T, y: T) -> T {
    let Some((&(d, x), later)) = entries.split_first() else {
        return if b == T::zero() { T::zero() } else { b * y };
    };
    let first = if b == T::zero() {
        (a * d) * x
    } else {
        (a * d) * x + b * y
    };
    later.iter().fold(first, |sum, &(d, x)| (a * d) * x + sum)
}

/// Each entry of column `y.col` becomes `of` its lane, its row and itself.
fn revise<T: Real>(y: &mut Operand<T>, of: impl Fn(usize, usize, T) -> T) {
    for b in 0..y.lanes {
        for i in 0..y.rows {
            let place = y.place(b, y.col, i);
            y.data[place] = of(b, i, y.data[place]);
        }
    }
}

/// Each cell of a table becomes `of` its lane, its column, its row and itself.
fn revise_table<T: Real>(d: &mut Operand<T>, of: impl Fn(usize, usize, usize, T) -> T) {
    for b in 0..d.lanes {
        for j in 0..d.cols {
            for i in 0..d.rows {
                let place = d.place(b, j, i);
                d.data[place] = of(b, j, i, d.data[place]);
            }
        }
    }
}

fn carry_out<T: Real>(case: &mut Case<T>) {
    let old = case.clone();
    let entry = |k: usize, b: usize, n: usize, i: usize| {
        let x = &old.operands[k];
        x.at(lane_for(b, x.lanes, n), x.col, i)
    };
    let cell = |k: usize, b: usize, n: usize, j: usize, i: usize| {
        let x = &old.operands[k];
        x.at(lane_for(b, x.lanes, n), j, i)
    };
    let factor = |k: usize| old.factors[k];
    let written = *case.call.written().last().unwrap();
    let y = &mut case.operands[written];
    let n = y.lanes;
    match case.call {
        Call::Axpy => {
            let (a, b) = (factor(0), factor(1));
            revise(y, |lane, i, y| blend(a, entry(0, lane, n, i), b, y));
        }
        Call::BatchedAxpy => {
            let b = factor(0);
            revise(y, |lane, i, y| {
                blend(entry(0, lane, n, 0), entry(1, lane, n, i), b, y)
            });
        }
        Call::Gemv => {
            let cols = old.operands[0].cols;
            revise(y, |lane, i, y| {
                let entries: Vec<_> = (0..cols)
                    .map(|j| (cell(0, lane, n, j, i), entry(1, lane, n, j)))
                    .collect();
                combined(factor(0), &entries, factor(1), y)
            });
        }
        Call::GemvCols => {
            let (start, end) = (old.counts[0], old.counts[1]);
            revise(y, |lane, i, y| {
                let entries: Vec<_> = (start..end)
                    .map(|j| (cell(0, lane, n, j, i), old.numbers[j - start]))
                    .collect();
                combined(factor(0), &entries, factor(1), y)
            });
        }
        Call::GerCols => {
            let named = old.counts[0]..old.counts[1];
            revise_table(y, |lane, j, i, cell| {
                if !named.contains(&j) {
                    return cell;
                }
                (factor(0) * old.numbers[j - named.start]) * entry(0, lane, n, i) + cell
            });
        }
        Call::MulColsBy | Call::MulColsByTranspose => {
            let k = old.counts[0];
            let turned = old.call == Call::MulColsByTranspose;
            revise_table(y, |lane, j, i, kept| {
                let number = |l: usize| old.numbers[if turned { l * k + j } else { j * k + l }];
                if j >= k {
                    return kept;
                }
                (0..k).fold(T::zero(), |sum, l| sum + cell(0, lane, n, l, i) * number(l))
            });
        }
        Call::UpdateBackwardDiff => {
            let order = old.counts[0];
            for lane in 0..n {
                for i in 0..y.rows {
                    let last = y.place(lane, order + 2, i);
                    y.data[last] = entry(0, lane, n, i) + -y.at(lane, order + 1, i);
                    for j in (0..=order + 1).rev() {
                        let place = y.place(lane, j, i);
                        y.data[place] = y.at(lane, j, i) + y.at(lane, j + 1, i);
                    }
                }
            }
        }
        Call::UpdateBackwardDiffTranspose => turn_update(case, &old),
        Call::Gather => revise(y, |lane, i, _| entry(0, lane, n, old.list[i])),
        Call::Scatter => {
            for lane in 0..n {
                for (i, &to) in old.list.iter().enumerate() {
                    let place = y.place(lane, y.col, to);
                    y.data[place] = entry(0, lane, n, i);
                }
            }
        }
        Call::CopyFrom => revise(y, |lane, i, _| entry(0, lane, n, i)),
        Call::AddAssign => revise(y, |lane, i, y| y + entry(0, lane, n, i)),
        Call::SubAssign => revise(y, |lane, i, y| y + -entry(0, lane, n, i)),
        Call::SubInto => revise(y, |lane, i, y| entry(0, lane, n, i) + -y),
        Call::ComponentMulAssign => revise(y, |lane, i, y| y * entry(0, lane, n, i)),
        Call::ComponentDivAssign => revise(y, |lane, i, y| y / entry(0, lane, n, i)),
        Call::MulAssign => revise(y, |_, _, y| y * factor(0)),
        Call::DivAssign => revise(y, |_, _, y| y / factor(0)),
        Call::Fill => revise(y, |_, _, _| factor(0)),
        Call::FillIndex => {
            let row = old.counts[0];
            revise(y, |_, i, y| if i == row { factor(0) } else { y });
        }
        Call::AssignAtIndices => revise(
            y,
            |_, i, y| {
                if old.list.contains(&i) {
                    factor(0)
                } else {
                    y
                }
            },
        ),
        Call::CopyFromIndices => revise(y, |lane, i, y| {
            if old.list.contains(&i) {
                entry(0, lane, n, i)
            } else {
                y
            }
        }),
        Call::SetColumn => revise_table(y, |lane, j, i, kept| {
            if j == old.counts[0] {
                entry(0, lane, n, i)
            } else {
                kept
            }
        }),
        Call::AddColumnToVector => revise(y, |lane, i, y| cell(0, lane, n, old.counts[0], i) + y),
        Call::AddColumnsToBatchedVector => {
            let cols = old.operands[0].cols;
            let lanes = old.operands[0].lanes;
            revise(y, |lane, i, y| {
                y + cell(0, lane / cols, lanes, lane % cols, i)
            });
        }
        Call::ScaleAddAndAssign => revise_table(y, |lane, j, i, _| {
            cell(0, lane, n, j, i) + factor(0) * cell(1, lane, n, j, i)
        }),
        Call::FromDiagonal => revise_table(y, |lane, j, i, _| {
            if i == j {
                entry(0, lane, n, i)
            } else {
                T::zero()
            }
        }),
        Call::ResizeCols => {
            let cols = old.operands[0].cols;
            revise_table(y, |lane, j, i, _| {
                if j < cols {
                    cell(0, lane, n, j, i)
                } else {
                    T::zero()
                }
            });
        }
        Call::TableGather => {
            let (x, d) = (&old.operands[0], &old.operands[1]);
            for lane in 0..n {
                let from = lane_for(lane, x.lanes, n) * x.rows * x.cols;
                let to = lane * d.rows * d.cols;
                for (k, &s) in old.list.iter().enumerate() {
                    y.data[to + k] = x.data[from + s];
                }
            }
        }
        Call::SetDataWithIndices => {
            let d = &old.operands[1];
            for lane in 0..n {
                for (&to, &from) in old.list.iter().zip(&old.sources) {
                    y.data[lane * d.rows * d.cols + to] = entry(0, lane, n, from);
                }
            }
        }
        Call::TableCopyFrom => revise_table(y, |lane, j, i, _| cell(0, lane, n, j, i)),
        Call::TableAddAssign => revise_table(y, |lane, j, i, y| y + cell(0, lane, n, j, i)),
        Call::TableSubAssign => revise_table(y, |lane, j, i, y| y + -cell(0, lane, n, j, i)),
        Call::TableSubInto => revise_table(y, |lane, j, i, y| cell(0, lane, n, j, i) + -y),
        Call::TableMulAssign => revise_table(y, |_, _, _, y| y * factor(0)),
        Call::TableFill => revise_table(y, |_, _, _, _| factor(0)),
        Call::SquaredNorm | Call::RootFinding => unreachable!("these write nothing"),
    }
}

/// The transpose of the update: d becomes the sum of columns 0 to order + 2, then those columns
/// are multiplied by the matrix t of zeros, ones and one −1.
fn turn_update<T: Real>(case: &mut Case<T>, old: &Case<T>) {
    let order = old.counts[0];
    let k = order + 3;
    let table = &old.operands[0];
    let lanes = old.operands[1].lanes;
    revise(&mut case.operands[1], |lane, i, y| {
        let from = lane_for(lane, table.lanes, lanes);
        let entries: Vec<_> = (0..k).map(|j| (table.at(from, j, i), T::one())).collect();
        combined(T::one(), &entries, T::zero(), y)
    });
    let t = |l: usize, j: usize| {
        if j <= order && l <= j {
            T::one()
        } else if (l, j) == (order + 2, order + 1) {
            -T::one()
        } else {
            T::zero()
        }
    };
    revise_table(&mut case.operands[0], |lane, j, i, kept| {
        if j >= k {
            return kept;
        }
        (0..k).fold(T::zero(), |sum, l| sum + table.at(lane, l, i) * t(l, j))
    });
}

/// The greater of two: if one is not a number the other, if neither is greater the first.
fn greater<T: Real>(one: T, two: T) -> T {
    if diffsol_la::Scalar::is_nan(one) || two > one {
        two
    } else {
        one
    }
}

fn squared_norm<T: Real>(case: &Case<T>) -> T {
    let [x, y, atol] = &case.operands[..] else {
        unreachable!("the norm has three operands");
    };
    let rows = T::of_f64(x.rows as f64);
    let lane = |b: usize| {
        let sum = (0..x.rows).fold(T::zero(), |sum, i| {
            let y = y.at(lane_for(b, y.lanes, x.lanes), y.col, i);
            let atol = atol.at(lane_for(b, atol.lanes, x.lanes), atol.col, i);
            let term = x.at(b, x.col, i) / (num_abs(y) * case.factors[0] + atol);
            sum + term * term
        });
        sum / rows
    };
    if x.lanes == 1 {
        return lane(0);
    }
    (0..x.lanes).fold(T::zero(), |most, b| greater(most, lane(b)))
}

fn num_abs<T: Real>(value: T) -> T {
    let sign = 1u64 << (T::WIDTH - 1);
    T::of_bits(value.bits() & !sign)
}

/// What lane b finds: whether some g1 is zero, the greatest fraction and its row.
fn roots<T: Real>(case: &Case<T>, b: usize) -> (bool, T, i32) {
    let (g0, g1) = (&case.operands[0], &case.operands[1]);
    let mut best = (false, T::zero(), -1);
    for i in 0..g0.rows {
        let before = g0.at(b, g0.col, i);
        let after = g1.at(lane_for(b, g1.lanes, g0.lanes), g1.col, i);
        best.0 |= after == T::zero();
        if before * after < T::zero() {
            let fraction = num_abs(after / (after + -before));
            if fraction > best.1 {
                best.1 = fraction;
                best.2 = i as i32;
            }
        }
    }
    best
}
