//! The calls that are timed, each by all sides that have it.

use crate::plain;
use crate::time::{work, Row, Side, Work};
use diffsol_la::{
    DenseMatrix, Matrix, NalgebraContext, NalgebraIndex, NalgebraMat, NalgebraVec, Vector,
    VectorIndex,
};
use oracle::blas::Calls;
use std::ffi::c_char;
use std::hint::black_box;

#[cfg(konsjift)]
use crate::konsjift::{Column, ColumnMut, Real, Shape, Table, TableMut};

/// Columns of the tables, and coefficients of gemv and ger.
const COLS: usize = 8;
/// Columns that are multiplied, as many as a table of order 3 takes.
const MULTIPLIED: usize = 6;
const ORDER: usize = 3;

/// Numbers between 1 and 2, which keep their size under the calls below.
pub fn numbers(count: usize) -> Vec<f64> {
    (0..count)
        .map(|i| 1.0 + (i * 7 % 64) as f64 / 64.0)
        .collect()
}

/// An orthogonal matrix I − 2·v·vᵀ with v = (1, .., 1)/√k, so that products keep their size.
pub fn mirror(k: usize) -> Vec<f64> {
    let entry = |place: usize| {
        let diagonal = if place / k == place % k { 1.0 } else { 0.0 };
        diagonal - 2.0 / k as f64
    };
    (0..k * k).map(entry).collect()
}

/// Every row once, in an order that jumps.
pub fn shuffled(rows: usize) -> Vec<usize> {
    let step = (rows / 2 + 1..).find(|step| gcd(*step, rows) == 1).unwrap();
    (0..rows).map(|i| i * step % rows).collect()
}

fn gcd(a: usize, b: usize) -> usize {
    if b == 0 {
        a
    } else {
        gcd(b, a % b)
    }
}

pub fn context(lanes: usize) -> NalgebraContext {
    NalgebraContext::with_nbatch(lanes)
}

pub fn vector(lanes: usize, entries: &[f64]) -> NalgebraVec<f64> {
    NalgebraVec::from_vec(entries.to_vec(), context(lanes))
}

pub fn matrix(rows: usize, cols: usize, lanes: usize, cells: &[f64]) -> NalgebraMat<f64> {
    NalgebraMat::from_vec(rows, cols, cells.to_vec(), context(lanes))
}

/// The BLAS libraries that were found.
pub type Blas<'a> = [(Side, Option<&'a Calls<f64>>); 2];

/// Adds a side for each BLAS that was found.
fn with_blas<S: Clone + 'static>(
    sides: &mut Vec<(Side, Work)>,
    blas: &Blas,
    state: &S,
    step: fn(&Calls<f64>, &mut S),
) {
    for (side, calls) in blas {
        if let Some(calls) = calls {
            let calls = (*calls).clone();
            sides.push((*side, work(state.clone(), move |state| step(&calls, state))));
        }
    }
}

/// The order of the rows on the page.
pub const NAMES: [&str; 9] = [
    "axpy",
    "gemv",
    "ger_cols",
    "mul_cols_by, work 8",
    "mul_cols_by, work 1024",
    "update_backward_diff",
    "gather",
    "squared_norm",
    crate::script::NAME,
];

/// All calls at this size.
pub fn rows(rows: usize, lanes: usize, blas: &Blas) -> Vec<Row> {
    let row = |call, sides| Row {
        call,
        rows,
        lanes,
        sides,
    };
    vec![
        row("axpy", axpy(rows, lanes, blas)),
        row("gemv", gemv(rows, lanes, blas)),
        row("ger_cols", ger(rows, lanes, blas)),
        row("mul_cols_by, work 8", mul_cols_by(rows, lanes, 8)),
        row("mul_cols_by, work 1024", mul_cols_by(rows, lanes, 1024)),
        row("update_backward_diff", update(rows, lanes)),
        row("gather", gather(rows, lanes)),
        row("squared_norm", squared_norm(rows, lanes)),
    ]
}

#[cfg(konsjift)]
fn shape(rows: usize, cols: usize, lanes: usize) -> Shape {
    Shape { rows, cols, lanes }
}

// b = 1, as BLAS has it. x changes its sign in turn by a, so y keeps its size.
fn axpy(rows: usize, lanes: usize, blas: &Blas) -> Vec<(Side, Work)> {
    let (x, y) = (numbers(rows * lanes), numbers(rows * lanes));
    let mut sides: Vec<(Side, Work)> = vec![];
    let state = (x.clone(), y.clone(), 1e-9, rows);
    #[cfg(konsjift)]
    sides.push((
        Side::Konsjift,
        work((state.clone(), lanes), |((x, y, a, rows), lanes)| {
            *a = -*a;
            let x = Column::vector(*rows, *lanes, x);
            f64::axpy(*a, x, 1.0, ColumnMut::vector(*rows, *lanes, y)).unwrap();
        }),
    ));
    let held = (vector(lanes, &x), vector(lanes, &y), 1e-9);
    sides.push((
        Side::Rust,
        work(held, |(x, y, a)| {
            *a = -*a;
            y.axpy(*a, x, 1.0);
        }),
    ));
    sides.push((
        Side::Plain,
        work(state.clone(), |(x, y, a, rows)| {
            *a = -*a;
            plain::axpy(*rows, *a, x, 1.0, y);
        }),
    ));
    with_blas(&mut sides, blas, &state, |calls, (x, y, a, rows)| {
        *a = -*a;
        let (n, one) = (*rows as i32, 1);
        for (x, y) in x.chunks_exact(*rows).zip(y.chunks_exact_mut(*rows)) {
            unsafe { (calls.axpy)(&n, a, x.as_ptr(), &one, y.as_mut_ptr(), &one) };
        }
    });
    sides
}

fn gemv(rows: usize, lanes: usize, blas: &Blas) -> Vec<(Side, Work)> {
    let table = numbers(rows * COLS * lanes);
    let (x, y) = (numbers(COLS * lanes), numbers(rows * lanes));
    let (a, b) = (0.01, 0.5);
    let mut sides: Vec<(Side, Work)> = vec![];
    let state = (table.clone(), x.clone(), y.clone(), (a, b), rows);
    #[cfg(konsjift)]
    sides.push((
        Side::Konsjift,
        work(
            (state.clone(), lanes),
            |((table, x, y, (a, b), rows), lanes)| {
                let table = Table {
                    shape: shape(*rows, COLS, *lanes),
                    data: table,
                };
                let x = Column::vector(COLS, *lanes, x);
                f64::gemv(*a, table, x, *b, ColumnMut::vector(*rows, *lanes, y)).unwrap();
            },
        ),
    ));
    let held = (
        matrix(rows, COLS, lanes, &table),
        vector(lanes, &x),
        vector(lanes, &y),
        (a, b),
    );
    sides.push((
        Side::Rust,
        work(held, |(table, x, y, (a, b))| table.gemv(*a, x, *b, y)),
    ));
    sides.push((
        Side::Plain,
        work(state.clone(), |(table, x, y, (a, b), rows)| {
            plain::gemv((*rows, COLS), *a, table, x, *b, y);
        }),
    ));
    with_blas(
        &mut sides,
        blas,
        &state,
        |calls, (table, x, y, (a, b), rows)| {
            let (m, n, one, straight) = (*rows as i32, COLS as i32, 1, b'N' as c_char);
            let lanes = table.chunks_exact(*rows * COLS).zip(x.chunks_exact(COLS));
            for ((d, x), y) in lanes.zip(y.chunks_exact_mut(*rows)) {
                let (d, x, y) = (d.as_ptr(), x.as_ptr(), y.as_mut_ptr());
                unsafe { (calls.gemv)(&straight, &m, &n, a, d, &m, x, &one, b, y, &one) };
            }
        },
    );
    sides
}

fn ger(rows: usize, lanes: usize, blas: &Blas) -> Vec<(Side, Work)> {
    let table = numbers(rows * COLS * lanes);
    let (x, p) = (numbers(COLS), numbers(rows * lanes));
    let mut sides: Vec<(Side, Work)> = vec![];
    let state = (x.clone(), p.clone(), table.clone(), 1e-9, rows);
    #[cfg(konsjift)]
    sides.push((
        Side::Konsjift,
        work((state.clone(), lanes), |((x, p, table, a, rows), lanes)| {
            *a = -*a;
            let table = TableMut {
                shape: shape(*rows, COLS, *lanes),
                data: table,
            };
            f64::ger_cols(0, COLS, *a, x, Column::vector(*rows, *lanes, p), table).unwrap();
        }),
    ));
    let held = (
        x.clone(),
        vector(lanes, &p),
        matrix(rows, COLS, lanes, &table),
        1e-9,
    );
    sides.push((
        Side::Rust,
        work(held, |(x, p, table, a)| {
            *a = -*a;
            table.ger_cols(0, COLS, *a, x, p);
        }),
    ));
    sides.push((
        Side::Plain,
        work(state.clone(), |(x, p, table, a, rows)| {
            *a = -*a;
            plain::ger_cols((*rows, COLS), COLS, *a, x, p, table);
        }),
    ));
    with_blas(&mut sides, blas, &state, |calls, (x, p, table, a, rows)| {
        *a = -*a;
        let (m, n, one) = (*rows as i32, COLS as i32, 1);
        let lanes = p
            .chunks_exact(*rows)
            .zip(table.chunks_exact_mut(*rows * COLS));
        for (p, d) in lanes {
            let (p, x, d) = (p.as_ptr(), x.as_ptr(), d.as_mut_ptr());
            unsafe { (calls.ger)(&m, &n, a, p, &one, x, &one, d, &m) };
        }
    });
    sides
}

fn mul_cols_by(rows: usize, lanes: usize, _work_memory: usize) -> Vec<(Side, Work)> {
    let table = numbers(rows * COLS * lanes);
    let m = mirror(MULTIPLIED);
    let mut sides: Vec<(Side, Work)> = vec![];
    let state = (m.clone(), table.clone(), rows);
    #[cfg(konsjift)]
    sides.push((
        Side::Konsjift,
        work(
            (state.clone(), lanes, vec![0.0; _work_memory]),
            |((m, table, rows), lanes, lent)| {
                let table = TableMut {
                    shape: shape(*rows, COLS, *lanes),
                    data: table,
                };
                f64::mul_cols_by(MULTIPLIED, m, table, lent).unwrap();
            },
        ),
    ));
    let held = (m.clone(), matrix(rows, COLS, lanes, &table));
    sides.push((
        Side::Rust,
        work(held, |(m, table)| table.mul_cols_by(MULTIPLIED, m)),
    ));
    sides.push((
        Side::Plain,
        work(state, |(m, table, rows)| {
            plain::mul_cols_by((*rows, COLS), MULTIPLIED, m, false, table);
        }),
    ));
    sides
}

fn update(rows: usize, lanes: usize) -> Vec<(Side, Work)> {
    let (table, d) = (numbers(rows * COLS * lanes), numbers(rows * lanes));
    let mut sides: Vec<(Side, Work)> = vec![];
    let state = (d.clone(), table.clone(), rows);
    #[cfg(konsjift)]
    sides.push((
        Side::Konsjift,
        work((state.clone(), lanes), |((d, table, rows), lanes)| {
            let table = TableMut {
                shape: shape(*rows, COLS, *lanes),
                data: table,
            };
            let d = Column::vector(*rows, *lanes, d);
            f64::update_backward_diff(ORDER, d, table).unwrap();
        }),
    ));
    let held = (vector(lanes, &d), matrix(rows, COLS, lanes, &table));
    sides.push((
        Side::Rust,
        work(held, |(d, table)| table.update_backward_diff(ORDER, d)),
    ));
    sides.push((
        Side::Plain,
        work(state, |(d, table, rows)| {
            plain::update((*rows, COLS), ORDER, d, table);
        }),
    ));
    sides
}

fn gather(rows: usize, lanes: usize) -> Vec<(Side, Work)> {
    let (x, y) = (numbers(rows * lanes), numbers(rows * lanes));
    let list = shuffled(rows);
    let mut sides: Vec<(Side, Work)> = vec![];
    let state = (list.clone(), x.clone(), y.clone(), rows);
    #[cfg(konsjift)]
    sides.push((
        Side::Konsjift,
        work((state.clone(), lanes), |((list, x, y, rows), lanes)| {
            let x = Column::vector(*rows, *lanes, x);
            f64::gather(list, x, ColumnMut::vector(*rows, *lanes, y)).unwrap();
        }),
    ));
    let index = NalgebraIndex::from_vec(list, context(1));
    let held = (index, vector(lanes, &x), vector(lanes, &y));
    sides.push((
        Side::Rust,
        work(held, |(list, x, y)| Vector::gather(y, x, list)),
    ));
    sides.push((
        Side::Plain,
        work(state, |(list, x, y, rows)| plain::gather(list, *rows, x, y)),
    ));
    sides
}

fn squared_norm(rows: usize, lanes: usize) -> Vec<(Side, Work)> {
    let (x, y) = (numbers(rows * lanes), numbers(rows * lanes));
    let (atol, rtol) = (numbers(rows * lanes), 0.5);
    let mut sides: Vec<(Side, Work)> = vec![];
    let state = (x.clone(), y.clone(), atol.clone(), rtol, rows);
    #[cfg(konsjift)]
    sides.push((
        Side::Konsjift,
        work(
            (state.clone(), lanes),
            |((x, y, atol, rtol, rows), lanes)| {
                let [x, y, atol] = [x, y, atol].map(|v| Column::vector(*rows, *lanes, v));
                black_box(f64::squared_norm(x, y, atol, *rtol).unwrap());
            },
        ),
    ));
    let held = (
        vector(lanes, &x),
        vector(lanes, &y),
        vector(lanes, &atol),
        rtol,
    );
    sides.push((
        Side::Rust,
        work(held, |(x, y, atol, rtol)| {
            black_box(Vector::squared_norm(x, y, atol, *rtol));
        }),
    ));
    sides.push((
        Side::Plain,
        work(state, |(x, y, atol, rtol, rows)| {
            black_box(plain::squared_norm(*rows, x, y, atol, *rtol));
        }),
    ));
    sides
}
