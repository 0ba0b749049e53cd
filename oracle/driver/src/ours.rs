//! The library's answer to a case, through its C interface.

use crate::case::{Answer, Case};
use crate::float::Real;

/// Whether the library was there when the driver was built.
pub const LINKED: bool = cfg!(konsjift);

#[cfg(not(konsjift))]
pub fn answer<T: Real>(_: &Case<T>) -> Answer {
    Answer::Absent
}

/// What the driver needs of a number on this side.
#[cfg(not(konsjift))]
pub trait Linked {}
#[cfg(not(konsjift))]
impl<T> Linked for T {}

#[cfg(konsjift)]
pub use crate::konsjift::Real as Linked;

#[cfg(konsjift)]
pub fn answer<T: Real>(case: &Case<T>) -> Answer {
    use crate::case::{Call, Operand};
    use crate::konsjift::{Column, ColumnMut, Refusal, Shape, Table, TableMut};

    fn shape<T>(o: &Operand<T>) -> Shape {
        Shape {
            rows: o.rows,
            cols: o.cols,
            lanes: o.lanes,
        }
    }
    fn column<T>(o: &Operand<T>) -> Column<'_, T> {
        Column {
            shape: shape(o),
            col: o.col,
            data: &o.data,
        }
    }
    fn column_mut<T>(o: &mut Operand<T>) -> ColumnMut<'_, T> {
        ColumnMut {
            shape: shape(o),
            col: o.col,
            data: &mut o.data,
        }
    }
    fn table<T>(o: &Operand<T>) -> Table<'_, T> {
        Table {
            shape: shape(o),
            data: &o.data,
        }
    }
    fn table_mut<T>(o: &mut Operand<T>) -> TableMut<'_, T> {
        TableMut {
            shape: shape(o),
            data: &mut o.data,
        }
    }

    if !case.call.exported() {
        return Answer::Absent;
    }
    let mut done = case.clone();
    // Work memory begins with what a call must not rely on.
    let mut work = vec![T::of_bits(u64::MAX >> (64 - T::WIDTH)); case.work];
    let before: Vec<u64> = work.iter().map(|v| v.bits()).collect();
    let (counts, factors, numbers, list) = (
        &case.counts,
        &case.factors,
        &case.numbers[..],
        &case.list[..],
    );
    let result: Result<(), Refusal> = match (case.call, &mut done.operands[..]) {
        (Call::Axpy, [x, y]) => T::axpy(factors[0], column(x), factors[1], column_mut(y)),
        (Call::BatchedAxpy, [a, x, y]) => {
            T::batched_axpy(column(a), column(x), factors[0], column_mut(y))
        }
        (Call::Gemv, [d, x, y]) => {
            T::gemv(factors[0], table(d), column(x), factors[1], column_mut(y))
        }
        (Call::GemvCols, [d, y]) => T::gemv_cols(
            counts[0],
            counts[1],
            factors[0],
            table(d),
            numbers,
            factors[1],
            column_mut(y),
        ),
        (Call::GerCols, [p, d]) => T::ger_cols(
            counts[0],
            counts[1],
            factors[0],
            numbers,
            column(p),
            table_mut(d),
        ),
        (Call::MulColsBy, [d]) => T::mul_cols_by(counts[0], numbers, table_mut(d), &mut work),
        (Call::MulColsByTranspose, [d]) => {
            T::mul_cols_by_transpose(counts[0], numbers, table_mut(d), &mut work)
        }
        (Call::UpdateBackwardDiff, [v, d]) => {
            T::update_backward_diff(counts[0], column(v), table_mut(d))
        }
        (Call::UpdateBackwardDiffTranspose, [d, v]) => {
            T::update_backward_diff_transpose(counts[0], table_mut(d), column_mut(v), &mut work)
        }
        (Call::Gather, [x, y]) => T::gather(list, column(x), column_mut(y)),
        (Call::Scatter, [x, y]) => T::scatter(list, column(x), column_mut(y)),
        (Call::SquaredNorm, [x, y, atol]) => {
            return match T::squared_norm(column(x), column(y), column(atol), factors[0]) {
                Ok(norm) => Answer::Accepted(vec![norm.bits()], None),
                Err(refusal) => Answer::Refused(refusal.number()),
            }
        }
        (Call::RootFinding, [g0, g1]) => {
            return match T::root_finding(column(g0), column(g1)) {
                Ok(root) => {
                    Answer::Accepted(vec![root.fraction.bits()], Some((root.found, root.row)))
                }
                Err(refusal) => Answer::Refused(refusal.number()),
            }
        }
        _ => unreachable!("a call has its operands"),
    };
    match result {
        Ok(()) => Answer::Accepted(done.written(), None),
        Err(refusal) => {
            let after: Vec<u64> = work.iter().map(|v| v.bits()).collect();
            assert!(
                done.written() == case.written() && after == before,
                "a refusal wrote: {}",
                case.fields()
            );
            Answer::Refused(refusal.number())
        }
    }
}
