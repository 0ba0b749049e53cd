//! The listed Rust's answer to a case, in each of the forms it has for the call. Where it has no
//! form on a column of a table, the column is taken out by `into_owned` and put back by `copy_from`.

use crate::case::{Answer, Call, Case, Kind, Operand};
use crate::float::Real;
use diffsol_la::{
    DenseMatrix, Matrix, MatrixCommon, NalgebraContext, NalgebraIndex, NalgebraMat, NalgebraVec,
    Scale, Vector, VectorIndex, VectorView, VectorViewMut,
};
use std::panic::{catch_unwind, AssertUnwindSafe};

/// What a form leaves: the written operands' memory, or what it answers.
type Outcome<T> = (Vec<Vec<T>>, Option<(bool, i32)>);
type Form<T> = fn(&Case<T>) -> Outcome<T>;

/// One answer for each form; all of them must be the same.
pub fn answers<T: Real>(case: &Case<T>) -> Vec<Answer> {
    if absent(case) {
        return vec![Answer::Absent];
    }
    let forms = forms(case.call).into_iter();
    forms
        .map(|form| match catch_unwind(AssertUnwindSafe(|| form(case))) {
            Ok((memory, root)) => {
                let bits = memory.iter().flatten().map(|v| v.bits()).collect();
                Answer::Accepted(bits, root)
            }
            // A panic has no number; 255 stands for it.
            Err(_) => Answer::Refused(PANIC),
        })
        .collect()
}

pub const PANIC: u8 = 255;

/// Whether the Rust cannot be asked: it takes a vector's rows from its memory, it has no work
/// memory, and it makes the result of two calls itself.
fn absent<T: Real>(case: &Case<T>) -> bool {
    let with_kinds = || case.operands.iter().zip(case.call.operands());
    let shapeless =
        with_kinds().any(|(o, kind)| *kind == Kind::Vector && o.is_whole() && !o.fits());
    let made = match (case.call, &case.operands[..]) {
        (Call::FromDiagonal, [v, d]) => {
            !d.fits() || d.rows != v.rows || d.cols != v.rows || d.lanes != v.lanes
        }
        (Call::ResizeCols, [x, d]) => !d.fits() || d.rows != x.rows || d.lanes != x.lanes,
        _ => false,
    };
    shapeless || made || case.call.works() && case.work < 8
}

fn context(lanes: usize) -> NalgebraContext {
    NalgebraContext::with_nbatch(lanes)
}

fn table<T: Real>(o: &Operand<T>) -> NalgebraMat<T> {
    NalgebraMat::from_vec(o.rows, o.cols, o.data.clone(), context(o.lanes))
}

fn index(list: &[usize]) -> NalgebraIndex {
    NalgebraIndex::from_vec(list.to_vec(), NalgebraContext::default())
}

fn entries<T: Real>(d: &NalgebraMat<T>) -> Vec<T> {
    d.inner().as_slice().to_vec()
}

/// A vector operand: itself, or the table whose column it is.
enum Held<T: Real> {
    Whole(NalgebraVec<T>),
    Column(NalgebraMat<T>, usize),
}

fn held<T: Real>(o: &Operand<T>) -> Held<T> {
    if o.is_whole() {
        return Held::Whole(NalgebraVec::from_vec(o.data.clone(), context(o.lanes)));
    }
    Held::Column(table(o), o.col)
}

/// The operand as an owned vector.
fn owned<T: Real>(o: &Operand<T>) -> NalgebraVec<T> {
    match held(o) {
        Held::Whole(v) => v,
        Held::Column(d, j) => d.column(j).into_owned(),
    }
}

/// The operand's memory after `act` on it as an owned vector.
fn through<T: Real>(o: &Operand<T>, act: impl FnOnce(&mut NalgebraVec<T>)) -> Vec<T> {
    match held(o) {
        Held::Whole(mut v) => {
            act(&mut v);
            v.clone_as_vec()
        }
        Held::Column(mut d, j) => {
            let mut v = d.column(j).into_owned();
            act(&mut v);
            d.column_mut(j).copy_from(&v);
            entries(&d)
        }
    }
}

fn one<T: Real>(memory: Vec<T>) -> Outcome<T> {
    (vec![memory], None)
}

fn forms<T: Real>(call: Call) -> Vec<Form<T>> {
    match call {
        Call::Axpy => vec![axpy, axpy_owned],
        Call::BatchedAxpy => vec![|c| {
            let (a, x) = (owned(&c.operands[0]), owned(&c.operands[1]));
            one(through(&c.operands[2], |y| {
                y.batched_axpy(&a, &x, c.factors[0])
            }))
        }],
        Call::Gemv => vec![|c| {
            let (d, x) = (table(&c.operands[0]), owned(&c.operands[1]));
            one(through(&c.operands[2], |y| {
                d.gemv(c.factors[0], &x, c.factors[1], y)
            }))
        }],
        Call::GemvCols => vec![|c| {
            let d = table(&c.operands[0]);
            let (a, b) = (c.factors[0], c.factors[1]);
            one(through(&c.operands[1], |y| {
                d.gemv_cols(c.counts[0], c.counts[1], a, &c.numbers, b, y)
            }))
        }],
        Call::GerCols => vec![|c| {
            let (p, mut d) = (owned(&c.operands[0]), table(&c.operands[1]));
            d.ger_cols(c.counts[0], c.counts[1], c.factors[0], &c.numbers, &p);
            one(entries(&d))
        }],
        Call::MulColsBy => vec![|c| {
            let mut d = table(&c.operands[0]);
            d.mul_cols_by(c.counts[0], &c.numbers);
            one(entries(&d))
        }],
        Call::MulColsByTranspose => vec![|c| {
            let mut d = table(&c.operands[0]);
            d.mul_cols_by_transpose(c.counts[0], &c.numbers);
            one(entries(&d))
        }],
        Call::UpdateBackwardDiff => vec![|c| {
            let (d, mut table) = (owned(&c.operands[0]), table(&c.operands[1]));
            table.update_backward_diff(c.counts[0], &d);
            one(entries(&table))
        }],
        Call::UpdateBackwardDiffTranspose => vec![|c| {
            let mut table = table(&c.operands[0]);
            let d = through(&c.operands[1], |d| {
                table.update_backward_diff_transpose(c.counts[0], d)
            });
            (vec![entries(&table), d], None)
        }],
        Call::Gather => vec![|c| {
            let x = owned(&c.operands[0]);
            one(through(&c.operands[1], |y| y.gather(&x, &index(&c.list))))
        }],
        Call::Scatter => vec![|c| {
            let x = owned(&c.operands[0]);
            one(through(&c.operands[1], |y| x.scatter(&index(&c.list), y)))
        }],
        Call::SquaredNorm => vec![squared_norm, |c| {
            let [x, y, atol] = [0, 1, 2].map(|k| owned(&c.operands[k]));
            one(vec![Vector::squared_norm(&x, &y, &atol, c.factors[0])])
        }],
        Call::RootFinding => vec![|c| {
            let (g0, g1) = (owned(&c.operands[0]), owned(&c.operands[1]));
            let (found, fraction, row) = g0.root_finding(&g1);
            (vec![vec![fraction]], Some((found, row)))
        }],
        Call::CopyFrom => vec![copy_from],
        Call::AddAssign => vec![
            add_assign,
            |c| {
                let x = owned(&c.operands[0]);
                one(through(&c.operands[1], |y| *y = y.clone() + &x))
            },
            |c| {
                let x = owned(&c.operands[0]);
                one(through(&c.operands[1], |y| *y = &*y + &x))
            },
            |c| {
                let x = owned(&c.operands[0]);
                one(through(&c.operands[1], |y| *y = &x + y.clone()))
            },
        ],
        Call::SubAssign => vec![
            sub_assign,
            |c| {
                let x = owned(&c.operands[0]);
                one(through(&c.operands[1], |y| *y = y.clone() - &x))
            },
            |c| {
                let x = owned(&c.operands[0]);
                one(through(&c.operands[1], |y| *y = &*y - &x))
            },
        ],
        Call::SubInto => vec![
            |c| {
                let x = owned(&c.operands[0]);
                one(through(&c.operands[1], |y| *y = &x - y.clone()))
            },
            |c| match held(&c.operands[0]) {
                Held::Whole(x) => one(through(&c.operands[1], |y| *y = x.as_view() - y.clone())),
                Held::Column(d, j) => {
                    one(through(&c.operands[1], |y| *y = d.column(j) - y.clone()))
                }
            },
        ],
        Call::ComponentMulAssign => vec![|c| {
            let x = owned(&c.operands[0]);
            one(through(&c.operands[1], |y| y.component_mul_assign(&x)))
        }],
        Call::ComponentDivAssign => vec![|c| {
            let x = owned(&c.operands[0]);
            one(through(&c.operands[1], |y| y.component_div_assign(&x)))
        }],
        Call::MulAssign => vec![
            mul_assign,
            |c| {
                one(through(&c.operands[0], |y| {
                    *y = y.clone() * Scale(c.factors[0])
                }))
            },
            |c| one(through(&c.operands[0], |y| *y = &*y * Scale(c.factors[0]))),
            |c| {
                one(through(&c.operands[0], |y| {
                    *y = y.as_view() * Scale(c.factors[0])
                }))
            },
        ],
        Call::DivAssign => vec![|c| {
            one(through(&c.operands[0], |y| {
                *y = y.clone() / Scale(c.factors[0])
            }))
        }],
        Call::Fill => vec![|c| one(through(&c.operands[0], |y| y.fill(c.factors[0])))],
        Call::FillIndex => vec![fill_index],
        Call::AssignAtIndices => vec![|c| {
            one(through(&c.operands[0], |y| {
                y.assign_at_indices(&index(&c.list), c.factors[0])
            }))
        }],
        Call::CopyFromIndices => vec![|c| {
            let x = owned(&c.operands[0]);
            one(through(&c.operands[1], |y| {
                y.copy_from_indices(&x, &index(&c.list))
            }))
        }],
        Call::SetColumn => vec![|c| {
            let (v, mut d) = (owned(&c.operands[0]), table(&c.operands[1]));
            d.set_column(c.counts[0], &v);
            one(entries(&d))
        }],
        Call::AddColumnToVector => vec![|c| {
            let d = table(&c.operands[0]);
            one(through(&c.operands[1], |v| {
                d.add_column_to_vector(c.counts[0], v)
            }))
        }],
        Call::AddColumnsToBatchedVector => vec![|c| {
            let d = table(&c.operands[0]);
            one(through(&c.operands[1], |v| {
                d.add_columns_to_batched_vector(v)
            }))
        }],
        Call::ScaleAddAndAssign => vec![|c| {
            let [x, y, mut d] = [0, 1, 2].map(|k| table(&c.operands[k]));
            d.scale_add_and_assign(&x, c.factors[0], &y);
            one(entries(&d))
        }],
        Call::FromDiagonal => vec![|c| {
            let v = owned(&c.operands[0]);
            one(entries(&NalgebraMat::from_diagonal(&v)))
        }],
        Call::ResizeCols => vec![|c| {
            let mut d = table(&c.operands[0]);
            d.resize_cols(c.operands[1].cols);
            one(entries(&d))
        }],
        Call::TableGather => vec![|c| {
            let (x, mut d) = (table(&c.operands[0]), table(&c.operands[1]));
            Matrix::gather(&mut d, &x, &index(&c.list));
            one(entries(&d))
        }],
        Call::SetDataWithIndices => vec![|c| {
            let (v, mut d) = (owned(&c.operands[0]), table(&c.operands[1]));
            d.set_data_with_indices(&index(&c.list), &index(&c.sources), &v);
            one(entries(&d))
        }],
        Call::TableCopyFrom => vec![|c| {
            let (x, mut d) = (table(&c.operands[0]), table(&c.operands[1]));
            d.copy_from(&x);
            one(entries(&d))
        }],
        Call::TableAddAssign => vec![
            |c| {
                let (x, mut d) = (table(&c.operands[0]), table(&c.operands[1]));
                d += &x;
                one(entries(&d))
            },
            |c| one(entries(&(table(&c.operands[1]) + &table(&c.operands[0])))),
            |c| one(entries(&(&table(&c.operands[0]) + table(&c.operands[1])))),
        ],
        Call::TableSubAssign => vec![
            |c| {
                let (x, mut d) = (table(&c.operands[0]), table(&c.operands[1]));
                d -= &x;
                one(entries(&d))
            },
            |c| one(entries(&(table(&c.operands[1]) - &table(&c.operands[0])))),
        ],
        Call::TableSubInto => {
            vec![|c| one(entries(&(&table(&c.operands[0]) - table(&c.operands[1]))))]
        }
        Call::TableMulAssign => vec![
            |c| one(entries(&(table(&c.operands[0]) * Scale(c.factors[0])))),
            |c| one(entries(&(&table(&c.operands[0]) * Scale(c.factors[0])))),
        ],
        Call::TableFill => vec![|c| {
            let mut d = table(&c.operands[0]);
            DenseMatrix::fill(&mut d, c.factors[0]);
            one(entries(&d))
        }],
    }
}

// ---- Forms on views, where the Rust has them ----

fn axpy<T: Real>(c: &Case<T>) -> Outcome<T> {
    let (a, b) = (c.factors[0], c.factors[1]);
    one(match (held(&c.operands[0]), held(&c.operands[1])) {
        (Held::Whole(x), Held::Whole(mut y)) => {
            y.axpy(a, &x, b);
            y.clone_as_vec()
        }
        (Held::Column(x, j), Held::Whole(mut y)) => {
            y.axpy_v(a, &x.column(j), b);
            y.clone_as_vec()
        }
        (Held::Whole(x), Held::Column(mut y, j)) => {
            y.column_mut(j).axpy(a, &x, b);
            entries(&y)
        }
        (Held::Column(x, i), Held::Column(mut y, j)) => {
            y.column_mut(j).axpy(a, &x.column(i).into_owned(), b);
            entries(&y)
        }
    })
}

fn axpy_owned<T: Real>(c: &Case<T>) -> Outcome<T> {
    let x = owned(&c.operands[0]);
    one(through(&c.operands[1], |y| {
        y.axpy(c.factors[0], &x, c.factors[1])
    }))
}

fn squared_norm<T: Real>(c: &Case<T>) -> Outcome<T> {
    let (y, atol) = (owned(&c.operands[1]), owned(&c.operands[2]));
    one(vec![match held(&c.operands[0]) {
        Held::Whole(x) => VectorView::squared_norm(&x.as_view(), &y, &atol, c.factors[0]),
        Held::Column(x, j) => VectorView::squared_norm(&x.column(j), &y, &atol, c.factors[0]),
    }])
}

fn copy_from<T: Real>(c: &Case<T>) -> Outcome<T> {
    one(match (held(&c.operands[0]), held(&c.operands[1])) {
        (Held::Whole(x), Held::Whole(mut y)) => {
            y.copy_from(&x);
            y.clone_as_vec()
        }
        (Held::Column(x, j), Held::Whole(mut y)) => {
            y.copy_from_view(&x.column(j));
            y.clone_as_vec()
        }
        (Held::Whole(x), Held::Column(mut y, j)) => {
            y.column_mut(j).copy_from(&x);
            entries(&y)
        }
        (Held::Column(x, i), Held::Column(mut y, j)) => {
            y.column_mut(j).copy_from_view(&x.column(i));
            entries(&y)
        }
    })
}

macro_rules! assigning {
    ($name:ident, $op:tt) => {
        fn $name<T: Real>(c: &Case<T>) -> Outcome<T> {
            one(match (held(&c.operands[0]), held(&c.operands[1])) {
                (Held::Whole(x), Held::Whole(mut y)) => {
                    y $op &x;
                    y.clone_as_vec()
                }
                (Held::Column(x, j), Held::Whole(mut y)) => {
                    y $op x.column(j);
                    y.clone_as_vec()
                }
                (Held::Whole(x), Held::Column(mut y, j)) => {
                    let mut column = y.column_mut(j);
                    column $op &x;
                    entries(&y)
                }
                (Held::Column(x, i), Held::Column(mut y, j)) => {
                    let mut column = y.column_mut(j);
                    column $op x.column(i);
                    entries(&y)
                }
            })
        }
    };
}
assigning!(add_assign, +=);
assigning!(sub_assign, -=);

fn mul_assign<T: Real>(c: &Case<T>) -> Outcome<T> {
    let by = Scale(c.factors[0]);
    one(match held(&c.operands[0]) {
        Held::Whole(mut y) => {
            y *= by;
            y.clone_as_vec()
        }
        Held::Column(mut y, j) => {
            let mut column = y.column_mut(j);
            column *= by;
            entries(&y)
        }
    })
}

fn fill_index<T: Real>(c: &Case<T>) -> Outcome<T> {
    let (i, v) = (c.counts[0], c.factors[0]);
    one(match held(&c.operands[0]) {
        Held::Whole(mut y) => {
            y.fill_index(i, v);
            y.clone_as_vec()
        }
        Held::Column(mut y, j) => {
            y.column_mut(j).fill_index(i, v);
            entries(&y)
        }
    })
}
