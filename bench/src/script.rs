//! A script of 64 steps on 64 lanes, forward and back, by calls. The state is a table and two
//! vectors; the weights have the same shapes. The lists name every row once, so what a gather
//! and a scatter do on the way back can be done by calls of the C interface; factors b are 1.

use crate::calls::{context, matrix, mirror, numbers, shuffled, vector};
use crate::plain;
use crate::time::{work, Row, Side, Work};
use diffsol_la::{
    DenseMatrix, Matrix, MatrixCommon, NalgebraIndex, NalgebraMat, NalgebraVec, Vector,
    VectorIndex, VectorViewMut,
};

#[cfg(konsjift)]
use crate::konsjift::{Column, ColumnMut, Real, Shape, Table, TableMut};

pub const NAME: &str = "64 steps and back";
const LANES: usize = 64;
const COLS: usize = 8;
const ORDER: usize = 3;
const SUMMED: usize = 6;

#[derive(Clone, Copy)]
enum Step {
    Update,
    Sum,
    Axpy,
    Multiply,
    AddColumn,
    SetColumn,
    Gather,
    Scatter,
}

const KINDS: [Step; 8] = [
    Step::Update,
    Step::Sum,
    Step::Axpy,
    Step::Multiply,
    Step::AddColumn,
    Step::SetColumn,
    Step::Gather,
    Step::Scatter,
];

/// A side's state and weights.
trait Runs: Clone {
    fn forward(&mut self, step: Step);
    fn back(&mut self, step: Step);
    /// All numbers of state and weights.
    fn numbers(&self) -> Vec<f64>;
}

/// All 64 steps and back, from the same state each time.
fn run<R: Runs>(first: &R, at: &mut R) {
    at.clone_from(first);
    for k in 0..64 {
        at.forward(KINDS[k % KINDS.len()]);
    }
    for k in (0..64).rev() {
        at.back(KINDS[k % KINDS.len()]);
    }
}

/// The work of a side, once it has shown that it comes to what plain loops come to.
fn side<R: Runs + 'static>(first: R, rows: usize) -> Work {
    let (plain, mut here, mut there) = (Memory::new(rows), first.clone(), Memory::new(rows));
    run(&first, &mut here);
    run(&plain, &mut there);
    assert!(
        here.numbers() == there.numbers(),
        "the sides of the script differ"
    );
    work((first.clone(), first), |(first, at)| run(first, at))
}

pub fn row(rows: usize) -> Row {
    let mut sides: Vec<(Side, Work)> = vec![];
    #[cfg(konsjift)]
    sides.push((Side::Konsjift, side(Ours(Memory::new(rows)), rows)));
    sides.push((Side::Rust, side(Listed::new(rows), rows)));
    sides.push((Side::Plain, side(Memory::new(rows), rows)));
    Row {
        call: NAME,
        rows,
        lanes: LANES,
        sides,
    }
}

// ---- Plain loops ----

#[derive(Clone)]
struct Memory {
    rows: usize,
    table: Vec<f64>,
    left: Vec<f64>,
    right: Vec<f64>,
    table_weights: Vec<f64>,
    left_weights: Vec<f64>,
    right_weights: Vec<f64>,
    spare: Vec<f64>,
    coefficients: Vec<f64>,
    mirror: Vec<f64>,
    list: Vec<usize>,
    #[cfg(konsjift)]
    lent: Vec<f64>,
}

impl Memory {
    fn new(rows: usize) -> Memory {
        let (cells, entries) = (numbers(rows * COLS * LANES), numbers(rows * LANES));
        Memory {
            rows,
            table: cells.clone(),
            left: entries.clone(),
            right: entries.clone(),
            table_weights: cells,
            left_weights: entries.clone(),
            right_weights: entries.clone(),
            spare: entries,
            coefficients: numbers(SUMMED),
            mirror: mirror(SUMMED),
            list: shuffled(rows),
            #[cfg(konsjift)]
            lent: vec![0.0; 1024],
        }
    }
}

impl Runs for Memory {
    fn numbers(&self) -> Vec<f64> {
        let state = [&self.table[..], &self.left, &self.right];
        let weights = [
            &self.table_weights[..],
            &self.left_weights,
            &self.right_weights,
        ];
        [state.concat(), weights.concat()].concat()
    }

    fn forward(&mut self, step: Step) {
        let (rows, size) = (self.rows, (self.rows, COLS));
        match step {
            Step::Update => plain::update(size, ORDER, &self.left, &mut self.table),
            Step::Sum => plain::gemv_cols(
                size,
                SUMMED,
                0.5,
                &self.table,
                &self.coefficients,
                1.0,
                &mut self.left,
            ),
            Step::Axpy => plain::axpy(rows, 0.25, &self.right, 1.0, &mut self.left),
            Step::Multiply => {
                plain::mul_cols_by(size, SUMMED, &self.mirror, false, &mut self.table)
            }
            Step::AddColumn => plain::from_column(size, 2, &self.table, &mut self.left, true),
            Step::SetColumn => plain::into_column(size, 1, &self.left, &mut self.table, false),
            Step::Gather => plain::gather(&self.list, rows, &self.right, &mut self.left),
            Step::Scatter => plain::scatter(&self.list, rows, &self.left, &mut self.right),
        }
    }

    fn back(&mut self, step: Step) {
        let (rows, size) = (self.rows, (self.rows, COLS));
        match step {
            Step::Update => {
                plain::update_transpose(size, ORDER, &mut self.table_weights, &mut self.spare);
                plain::axpy(rows, 1.0, &self.spare, 1.0, &mut self.left_weights);
            }
            Step::Sum => plain::ger_cols(
                size,
                SUMMED,
                0.5,
                &self.coefficients,
                &self.left_weights,
                &mut self.table_weights,
            ),
            Step::Axpy => plain::axpy(rows, 0.25, &self.left_weights, 1.0, &mut self.right_weights),
            Step::Multiply => {
                plain::mul_cols_by(size, SUMMED, &self.mirror, true, &mut self.table_weights)
            }
            Step::AddColumn => {
                plain::into_column(size, 2, &self.left_weights, &mut self.table_weights, true)
            }
            Step::SetColumn => {
                plain::from_column(size, 1, &self.table_weights, &mut self.left_weights, true);
                self.spare.fill(0.0);
                plain::into_column(size, 1, &self.spare, &mut self.table_weights, false);
            }
            Step::Gather => {
                plain::scatter(&self.list, rows, &self.left_weights, &mut self.spare);
                plain::axpy(rows, 1.0, &self.spare, 1.0, &mut self.right_weights);
                self.left_weights.fill(0.0);
            }
            Step::Scatter => {
                plain::gather(&self.list, rows, &self.right_weights, &mut self.spare);
                plain::axpy(rows, 1.0, &self.spare, 1.0, &mut self.left_weights);
                self.right_weights.fill(0.0);
            }
        }
    }
}

// ---- The listed Rust ----

#[derive(Clone)]
struct Listed {
    table: NalgebraMat<f64>,
    left: NalgebraVec<f64>,
    right: NalgebraVec<f64>,
    table_weights: NalgebraMat<f64>,
    left_weights: NalgebraVec<f64>,
    right_weights: NalgebraVec<f64>,
    spare: NalgebraVec<f64>,
    coefficients: Vec<f64>,
    mirror: Vec<f64>,
    list: NalgebraIndex,
}

impl Listed {
    fn new(rows: usize) -> Listed {
        let m = Memory::new(rows);
        Listed {
            table: matrix(rows, COLS, LANES, &m.table),
            left: vector(LANES, &m.left),
            right: vector(LANES, &m.right),
            table_weights: matrix(rows, COLS, LANES, &m.table_weights),
            left_weights: vector(LANES, &m.left_weights),
            right_weights: vector(LANES, &m.right_weights),
            spare: vector(LANES, &m.spare),
            coefficients: m.coefficients,
            mirror: m.mirror,
            list: NalgebraIndex::from_vec(m.list, context(1)),
        }
    }
}

impl Runs for Listed {
    fn numbers(&self) -> Vec<f64> {
        let cells = |d: &NalgebraMat<f64>| d.inner().as_slice().to_vec();
        let state = [
            cells(&self.table),
            self.left.clone_as_vec(),
            self.right.clone_as_vec(),
        ];
        let weights = [
            cells(&self.table_weights),
            self.left_weights.clone_as_vec(),
            self.right_weights.clone_as_vec(),
        ];
        [state.concat(), weights.concat()].concat()
    }

    fn forward(&mut self, step: Step) {
        match step {
            Step::Update => self.table.update_backward_diff(ORDER, &self.left),
            Step::Sum => {
                self.table
                    .gemv_cols(0, SUMMED, 0.5, &self.coefficients, 1.0, &mut self.left)
            }
            Step::Axpy => self.left.axpy(0.25, &self.right, 1.0),
            Step::Multiply => self.table.mul_cols_by(SUMMED, &self.mirror),
            Step::AddColumn => self.table.add_column_to_vector(2, &mut self.left),
            Step::SetColumn => self.table.set_column(1, &self.left),
            Step::Gather => Vector::gather(&mut self.left, &self.right, &self.list),
            Step::Scatter => self.left.scatter(&self.list, &mut self.right),
        }
    }

    fn back(&mut self, step: Step) {
        match step {
            Step::Update => {
                self.table_weights
                    .update_backward_diff_transpose(ORDER, &mut self.spare);
                self.left_weights.axpy(1.0, &self.spare, 1.0);
            }
            Step::Sum => {
                self.table_weights
                    .ger_cols(0, SUMMED, 0.5, &self.coefficients, &self.left_weights)
            }
            Step::Axpy => self.right_weights.axpy(0.25, &self.left_weights, 1.0),
            Step::Multiply => self
                .table_weights
                .mul_cols_by_transpose(SUMMED, &self.mirror),
            Step::AddColumn => self
                .table_weights
                .column_mut(2)
                .axpy(1.0, &self.left_weights, 1.0),
            Step::SetColumn => {
                self.table_weights
                    .add_column_to_vector(1, &mut self.left_weights);
                self.spare.fill(0.0);
                self.table_weights.set_column(1, &self.spare);
            }
            Step::Gather => {
                self.left_weights.scatter(&self.list, &mut self.spare);
                self.right_weights.axpy(1.0, &self.spare, 1.0);
                self.left_weights.fill(0.0);
            }
            Step::Scatter => {
                Vector::gather(&mut self.spare, &self.right_weights, &self.list);
                self.left_weights.axpy(1.0, &self.spare, 1.0);
                self.right_weights.fill(0.0);
            }
        }
    }
}

// ---- Konsjift ----

#[cfg(konsjift)]
#[derive(Clone)]
struct Ours(Memory);

#[cfg(konsjift)]
impl Ours {
    fn shape(&self) -> Shape {
        Shape {
            rows: self.0.rows,
            cols: COLS,
            lanes: LANES,
        }
    }
}

#[cfg(konsjift)]
fn axpy(rows: usize, a: f64, x: &[f64], y: &mut [f64]) {
    f64::axpy(
        a,
        Column::vector(rows, LANES, x),
        1.0,
        ColumnMut::vector(rows, LANES, y),
    )
    .unwrap();
}

#[cfg(konsjift)]
impl Runs for Ours {
    fn numbers(&self) -> Vec<f64> {
        self.0.numbers()
    }

    fn forward(&mut self, step: Step) {
        let shape = self.shape();
        let m = &mut self.0;
        let rows = m.rows;
        match step {
            Step::Update => {
                let table = TableMut {
                    shape,
                    data: &mut m.table,
                };
                f64::update_backward_diff(ORDER, Column::vector(rows, LANES, &m.left), table)
                    .unwrap();
            }
            Step::Sum => {
                let table = Table {
                    shape,
                    data: &m.table,
                };
                let y = ColumnMut::vector(rows, LANES, &mut m.left);
                f64::gemv_cols(0, SUMMED, 0.5, table, &m.coefficients, 1.0, y).unwrap();
            }
            Step::Axpy => axpy(rows, 0.25, &m.right, &mut m.left),
            Step::Multiply => {
                let table = TableMut {
                    shape,
                    data: &mut m.table,
                };
                f64::mul_cols_by(SUMMED, &m.mirror, table, &mut m.lent).unwrap();
            }
            Step::AddColumn => {
                let x = Column {
                    shape,
                    col: 2,
                    data: &m.table,
                };
                f64::axpy(1.0, x, 1.0, ColumnMut::vector(rows, LANES, &mut m.left)).unwrap();
            }
            Step::SetColumn => {
                let y = ColumnMut {
                    shape,
                    col: 1,
                    data: &mut m.table,
                };
                f64::axpy(1.0, Column::vector(rows, LANES, &m.left), 0.0, y).unwrap();
            }
            Step::Gather => {
                let x = Column::vector(rows, LANES, &m.right);
                f64::gather(&m.list, x, ColumnMut::vector(rows, LANES, &mut m.left)).unwrap();
            }
            Step::Scatter => {
                let x = Column::vector(rows, LANES, &m.left);
                f64::scatter(&m.list, x, ColumnMut::vector(rows, LANES, &mut m.right)).unwrap();
            }
        }
    }

    fn back(&mut self, step: Step) {
        let shape = self.shape();
        let m = &mut self.0;
        let rows = m.rows;
        match step {
            Step::Update => {
                let table = TableMut {
                    shape,
                    data: &mut m.table_weights,
                };
                let d = ColumnMut::vector(rows, LANES, &mut m.spare);
                f64::update_backward_diff_transpose(ORDER, table, d, &mut m.lent).unwrap();
                axpy(rows, 1.0, &m.spare, &mut m.left_weights);
            }
            Step::Sum => {
                let table = TableMut {
                    shape,
                    data: &mut m.table_weights,
                };
                let p = Column::vector(rows, LANES, &m.left_weights);
                f64::ger_cols(0, SUMMED, 0.5, &m.coefficients, p, table).unwrap();
            }
            Step::Axpy => axpy(rows, 0.25, &m.left_weights, &mut m.right_weights),
            Step::Multiply => {
                let table = TableMut {
                    shape,
                    data: &mut m.table_weights,
                };
                f64::mul_cols_by_transpose(SUMMED, &m.mirror, table, &mut m.lent).unwrap();
            }
            Step::AddColumn => {
                let y = ColumnMut {
                    shape,
                    col: 2,
                    data: &mut m.table_weights,
                };
                f64::axpy(1.0, Column::vector(rows, LANES, &m.left_weights), 1.0, y).unwrap();
            }
            Step::SetColumn => {
                let x = Column {
                    shape,
                    col: 1,
                    data: &m.table_weights,
                };
                let p = ColumnMut::vector(rows, LANES, &mut m.left_weights);
                f64::axpy(1.0, x, 1.0, p).unwrap();
                m.spare.fill(0.0);
                let y = ColumnMut {
                    shape,
                    col: 1,
                    data: &mut m.table_weights,
                };
                f64::axpy(1.0, Column::vector(rows, LANES, &m.spare), 0.0, y).unwrap();
            }
            Step::Gather => {
                let p = Column::vector(rows, LANES, &m.left_weights);
                f64::scatter(&m.list, p, ColumnMut::vector(rows, LANES, &mut m.spare)).unwrap();
                axpy(rows, 1.0, &m.spare, &mut m.right_weights);
                m.left_weights.fill(0.0);
            }
            Step::Scatter => {
                let q = Column::vector(rows, LANES, &m.right_weights);
                f64::gather(&m.list, q, ColumnMut::vector(rows, LANES, &mut m.spare)).unwrap();
                axpy(rows, 1.0, &m.spare, &mut m.left_weights);
                m.right_weights.fill(0.0);
            }
        }
    }
}
