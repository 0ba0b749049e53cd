//! Konsjift for Rust: the declarations of include/konsjift.h, and safe functions over them.
//!
//! One file, to be taken into a crate as a module; the program links the static library. A call
//! that is refused answers the number of the refusal and leaves all memory as it was. What each
//! call means, and in which order it refuses, stands in the header.

#![allow(dead_code)]

use std::fmt;

/// The number of a refusal, from 1 to 11.
#[derive(Clone, Copy, PartialEq, Eq, Debug)]
pub struct Refusal(pub u8);

impl Refusal {
    pub fn number(self) -> u8 {
        self.0
    }
}

impl fmt::Display for Refusal {
    fn fmt(&self, f: &mut fmt::Formatter<'_>) -> fmt::Result {
        f.write_str(match self.0 {
            1 => "a shape has no lanes",
            2 => "a shape exceeds its limits",
            3 => "memory does not fit its shape",
            4 => "a column or range is outside the table",
            5 => "too many columns or too high an order",
            6 => "not the numbers that are needed",
            7 => "row or column counts differ",
            8 => "lane counts do not broadcast",
            9 => "a list has not its length",
            10 => "an index is outside",
            11 => "the lanes' roots differ",
            _ => "refused",
        })
    }
}

impl std::error::Error for Refusal {}

/// Rows, columns and lanes; cell (i, j) of lane b lies at (b·cols + j)·rows + i.
#[derive(Clone, Copy, PartialEq, Eq, Debug)]
pub struct Shape {
    pub rows: usize,
    pub cols: usize,
    pub lanes: usize,
}

/// A table that is read.
#[derive(Clone, Copy, Debug)]
pub struct Table<'a, T> {
    pub shape: Shape,
    pub data: &'a [T],
}

/// A table that is written.
#[derive(Debug)]
pub struct TableMut<'a, T> {
    pub shape: Shape,
    pub data: &'a mut [T],
}

/// A vector that is read: column `col` of every lane of a table.
#[derive(Clone, Copy, Debug)]
pub struct Column<'a, T> {
    pub shape: Shape,
    pub col: usize,
    pub data: &'a [T],
}

/// A vector that is written: column `col` of every lane of a table.
#[derive(Debug)]
pub struct ColumnMut<'a, T> {
    pub shape: Shape,
    pub col: usize,
    pub data: &'a mut [T],
}

impl<'a, T> Column<'a, T> {
    /// A whole vector.
    pub fn vector(rows: usize, lanes: usize, data: &'a [T]) -> Self {
        let shape = Shape {
            rows,
            cols: 1,
            lanes,
        };
        Column {
            shape,
            col: 0,
            data,
        }
    }
}

impl<'a, T> ColumnMut<'a, T> {
    /// A whole vector.
    pub fn vector(rows: usize, lanes: usize, data: &'a mut [T]) -> Self {
        let shape = Shape {
            rows,
            cols: 1,
            lanes,
        };
        ColumnMut {
            shape,
            col: 0,
            data,
        }
    }
}

/// What `root_finding` answers.
#[derive(Clone, Copy, PartialEq, Debug)]
pub struct Root<T> {
    /// Some entry after is zero.
    pub found: bool,
    /// The greatest fraction, or 0.
    pub fraction: T,
    /// Its row, or −1.
    pub row: i32,
}

fn answer(number: u8) -> Result<(), Refusal> {
    match number {
        0 => Ok(()),
        number => Err(Refusal(number)),
    }
}

/// Passes operands as the C interface takes them: `table` and `column` as their shape, `slice` as
/// nothing before, each then with its pointer and its length; anything else as it is.
macro_rules! pass {
    ($call:ident; [$($done:expr),*]) => { unsafe { $call($($done),*) } };
    ($call:ident; [$($done:expr),*] table $t:ident, $($rest:tt)*) => {
        pass!($call; [$($done,)* $t.shape.rows, $t.shape.cols, $t.shape.lanes,
            $t.data.as_ptr(), $t.data.len()] $($rest)*)
    };
    ($call:ident; [$($done:expr),*] table_mut $t:ident, $($rest:tt)*) => {
        pass!($call; [$($done,)* $t.shape.rows, $t.shape.cols, $t.shape.lanes,
            $t.data.as_mut_ptr(), $t.data.len()] $($rest)*)
    };
    ($call:ident; [$($done:expr),*] column $v:ident, $($rest:tt)*) => {
        pass!($call; [$($done,)* $v.shape.rows, $v.shape.cols, $v.shape.lanes, $v.col,
            $v.data.as_ptr(), $v.data.len()] $($rest)*)
    };
    ($call:ident; [$($done:expr),*] column_mut $v:ident, $($rest:tt)*) => {
        pass!($call; [$($done,)* $v.shape.rows, $v.shape.cols, $v.shape.lanes, $v.col,
            $v.data.as_mut_ptr(), $v.data.len()] $($rest)*)
    };
    ($call:ident; [$($done:expr),*] slice $s:ident, $($rest:tt)*) => {
        pass!($call; [$($done,)* $s.as_ptr(), $s.len()] $($rest)*)
    };
    ($call:ident; [$($done:expr),*] slice_mut $s:ident, $($rest:tt)*) => {
        pass!($call; [$($done,)* $s.as_mut_ptr(), $s.len()] $($rest)*)
    };
    ($call:ident; [$($done:expr),*] plain $e:expr, $($rest:tt)*) => {
        pass!($call; [$($done,)* $e] $($rest)*)
    };
}

/// f64 and f32: the numbers that the library's C interface has.
pub trait Real: Copy + Sized {
    /// y becomes a·x + b·y, and a·x alone where b is zero.
    fn axpy(a: Self, x: Column<Self>, b: Self, y: ColumnMut<Self>) -> Result<(), Refusal>;

    /// As `axpy`, with one factor for each lane of y.
    fn batched_axpy(
        a: Column<Self>,
        x: Column<Self>,
        b: Self,
        y: ColumnMut<Self>,
    ) -> Result<(), Refusal>;

    /// y becomes a·T·x + b·y.
    fn gemv(
        a: Self,
        table: Table<Self>,
        x: Column<Self>,
        b: Self,
        y: ColumnMut<Self>,
    ) -> Result<(), Refusal>;

    /// As `gemv`, on columns start to end − 1, with one x for all lanes.
    fn gemv_cols(
        start: usize,
        end: usize,
        a: Self,
        table: Table<Self>,
        x: &[Self],
        b: Self,
        y: ColumnMut<Self>,
    ) -> Result<(), Refusal>;

    /// Column start + l gains (a·x_l)·p.
    fn ger_cols(
        start: usize,
        end: usize,
        a: Self,
        x: &[Self],
        p: Column<Self>,
        table: TableMut<Self>,
    ) -> Result<(), Refusal>;

    /// Columns 0 to k − 1 are multiplied by the k by k matrix that m holds column by column.
    fn mul_cols_by(
        k: usize,
        m: &[Self],
        table: TableMut<Self>,
        work: &mut [Self],
    ) -> Result<(), Refusal>;

    /// As `mul_cols_by`, by the transposed matrix.
    fn mul_cols_by_transpose(
        k: usize,
        m: &[Self],
        table: TableMut<Self>,
        work: &mut [Self],
    ) -> Result<(), Refusal>;

    /// A table of backward differences takes the next one.
    fn update_backward_diff(
        order: usize,
        d: Column<Self>,
        table: TableMut<Self>,
    ) -> Result<(), Refusal>;

    /// The transpose of the update; d and the table are written.
    fn update_backward_diff_transpose(
        order: usize,
        table: TableMut<Self>,
        d: ColumnMut<Self>,
        work: &mut [Self],
    ) -> Result<(), Refusal>;

    /// y_i becomes x_list(i).
    fn gather(list: &[usize], x: Column<Self>, y: ColumnMut<Self>) -> Result<(), Refusal>;

    /// y_list(i) becomes x_i, in list order.
    fn scatter(list: &[usize], x: Column<Self>, y: ColumnMut<Self>) -> Result<(), Refusal>;

    /// The mean of (x / (|y|·rtol + atol))², the greatest of the lanes.
    fn squared_norm(
        x: Column<Self>,
        y: Column<Self>,
        atol: Column<Self>,
        rtol: Self,
    ) -> Result<Self, Refusal>;

    /// Where g went through zero, from g0 before to g1 after.
    fn root_finding(g0: Column<Self>, g1: Column<Self>) -> Result<Root<Self>, Refusal>;
}

macro_rules! real {
    ($real:ident, $suffix:literal) => {
        impl Real for $real {
            fn axpy(a: $real, x: Column<$real>, b: $real, y: ColumnMut<$real>) -> Result<(), Refusal> {
                extern "C" {
                    #[link_name = concat!("konsjift_axpy", $suffix)]
                    fn call(
                        a: $real,
                        x_rows: usize, x_cols: usize, x_lanes: usize, x_col: usize, x: *const $real, x_len: usize,
                        b: $real,
                        y_rows: usize, y_cols: usize, y_lanes: usize, y_col: usize, y: *mut $real, y_len: usize,
                    ) -> u8;
                }
                answer(pass!(call; [] plain a, column x, plain b, column_mut y,))
            }

            fn batched_axpy(
                a: Column<$real>, x: Column<$real>, b: $real, y: ColumnMut<$real>,
            ) -> Result<(), Refusal> {
                extern "C" {
                    #[link_name = concat!("konsjift_batched_axpy", $suffix)]
                    fn call(
                        a_rows: usize, a_cols: usize, a_lanes: usize, a_col: usize, a: *const $real, a_len: usize,
                        x_rows: usize, x_cols: usize, x_lanes: usize, x_col: usize, x: *const $real, x_len: usize,
                        b: $real,
                        y_rows: usize, y_cols: usize, y_lanes: usize, y_col: usize, y: *mut $real, y_len: usize,
                    ) -> u8;
                }
                answer(pass!(call; [] column a, column x, plain b, column_mut y,))
            }

            fn gemv(
                a: $real, table: Table<$real>, x: Column<$real>, b: $real, y: ColumnMut<$real>,
            ) -> Result<(), Refusal> {
                extern "C" {
                    #[link_name = concat!("konsjift_gemv", $suffix)]
                    fn call(
                        a: $real,
                        table_rows: usize, table_cols: usize, table_lanes: usize, table: *const $real, table_len: usize,
                        x_rows: usize, x_cols: usize, x_lanes: usize, x_col: usize, x: *const $real, x_len: usize,
                        b: $real,
                        y_rows: usize, y_cols: usize, y_lanes: usize, y_col: usize, y: *mut $real, y_len: usize,
                    ) -> u8;
                }
                answer(pass!(call; [] plain a, table table, column x, plain b, column_mut y,))
            }

            fn gemv_cols(
                start: usize, end: usize, a: $real, table: Table<$real>, x: &[$real], b: $real,
                y: ColumnMut<$real>,
            ) -> Result<(), Refusal> {
                extern "C" {
                    #[link_name = concat!("konsjift_gemv_cols", $suffix)]
                    fn call(
                        start: usize, end: usize, a: $real,
                        table_rows: usize, table_cols: usize, table_lanes: usize, table: *const $real, table_len: usize,
                        x: *const $real, x_len: usize,
                        b: $real,
                        y_rows: usize, y_cols: usize, y_lanes: usize, y_col: usize, y: *mut $real, y_len: usize,
                    ) -> u8;
                }
                answer(pass!(call; [] plain start, plain end, plain a, table table, slice x, plain b, column_mut y,))
            }

            fn ger_cols(
                start: usize, end: usize, a: $real, x: &[$real], p: Column<$real>, table: TableMut<$real>,
            ) -> Result<(), Refusal> {
                extern "C" {
                    #[link_name = concat!("konsjift_ger_cols", $suffix)]
                    fn call(
                        start: usize, end: usize, a: $real,
                        x: *const $real, x_len: usize,
                        p_rows: usize, p_cols: usize, p_lanes: usize, p_col: usize, p: *const $real, p_len: usize,
                        table_rows: usize, table_cols: usize, table_lanes: usize, table: *mut $real, table_len: usize,
                    ) -> u8;
                }
                answer(pass!(call; [] plain start, plain end, plain a, slice x, column p, table_mut table,))
            }

            fn mul_cols_by(
                k: usize, m: &[$real], table: TableMut<$real>, work: &mut [$real],
            ) -> Result<(), Refusal> {
                extern "C" {
                    #[link_name = concat!("konsjift_mul_cols_by", $suffix)]
                    fn call(
                        k: usize, m: *const $real, m_len: usize,
                        table_rows: usize, table_cols: usize, table_lanes: usize, table: *mut $real, table_len: usize,
                        work: *mut $real, work_len: usize,
                    ) -> u8;
                }
                answer(pass!(call; [] plain k, slice m, table_mut table, slice_mut work,))
            }

            fn mul_cols_by_transpose(
                k: usize, m: &[$real], table: TableMut<$real>, work: &mut [$real],
            ) -> Result<(), Refusal> {
                extern "C" {
                    #[link_name = concat!("konsjift_mul_cols_by_transpose", $suffix)]
                    fn call(
                        k: usize, m: *const $real, m_len: usize,
                        table_rows: usize, table_cols: usize, table_lanes: usize, table: *mut $real, table_len: usize,
                        work: *mut $real, work_len: usize,
                    ) -> u8;
                }
                answer(pass!(call; [] plain k, slice m, table_mut table, slice_mut work,))
            }

            fn update_backward_diff(
                order: usize, d: Column<$real>, table: TableMut<$real>,
            ) -> Result<(), Refusal> {
                extern "C" {
                    #[link_name = concat!("konsjift_update_backward_diff", $suffix)]
                    fn call(
                        order: usize,
                        d_rows: usize, d_cols: usize, d_lanes: usize, d_col: usize, d: *const $real, d_len: usize,
                        table_rows: usize, table_cols: usize, table_lanes: usize, table: *mut $real, table_len: usize,
                    ) -> u8;
                }
                answer(pass!(call; [] plain order, column d, table_mut table,))
            }

            fn update_backward_diff_transpose(
                order: usize, table: TableMut<$real>, d: ColumnMut<$real>, work: &mut [$real],
            ) -> Result<(), Refusal> {
                extern "C" {
                    #[link_name = concat!("konsjift_update_backward_diff_transpose", $suffix)]
                    fn call(
                        order: usize,
                        table_rows: usize, table_cols: usize, table_lanes: usize, table: *mut $real, table_len: usize,
                        d_rows: usize, d_cols: usize, d_lanes: usize, d_col: usize, d: *mut $real, d_len: usize,
                        work: *mut $real, work_len: usize,
                    ) -> u8;
                }
                answer(pass!(call; [] plain order, table_mut table, column_mut d, slice_mut work,))
            }

            fn gather(list: &[usize], x: Column<$real>, y: ColumnMut<$real>) -> Result<(), Refusal> {
                extern "C" {
                    #[link_name = concat!("konsjift_gather", $suffix)]
                    fn call(
                        list: *const usize, list_len: usize,
                        x_rows: usize, x_cols: usize, x_lanes: usize, x_col: usize, x: *const $real, x_len: usize,
                        y_rows: usize, y_cols: usize, y_lanes: usize, y_col: usize, y: *mut $real, y_len: usize,
                    ) -> u8;
                }
                answer(pass!(call; [] slice list, column x, column_mut y,))
            }

            fn scatter(list: &[usize], x: Column<$real>, y: ColumnMut<$real>) -> Result<(), Refusal> {
                extern "C" {
                    #[link_name = concat!("konsjift_scatter", $suffix)]
                    fn call(
                        list: *const usize, list_len: usize,
                        x_rows: usize, x_cols: usize, x_lanes: usize, x_col: usize, x: *const $real, x_len: usize,
                        y_rows: usize, y_cols: usize, y_lanes: usize, y_col: usize, y: *mut $real, y_len: usize,
                    ) -> u8;
                }
                answer(pass!(call; [] slice list, column x, column_mut y,))
            }

            fn squared_norm(
                x: Column<$real>, y: Column<$real>, atol: Column<$real>, rtol: $real,
            ) -> Result<$real, Refusal> {
                extern "C" {
                    #[link_name = concat!("konsjift_squared_norm", $suffix)]
                    fn call(
                        x_rows: usize, x_cols: usize, x_lanes: usize, x_col: usize, x: *const $real, x_len: usize,
                        y_rows: usize, y_cols: usize, y_lanes: usize, y_col: usize, y: *const $real, y_len: usize,
                        atol_rows: usize, atol_cols: usize, atol_lanes: usize, atol_col: usize,
                        atol: *const $real, atol_len: usize,
                        rtol: $real, norm: *mut $real,
                    ) -> u8;
                }
                let mut norm = 0.0;
                answer(pass!(call; [] column x, column y, column atol, plain rtol, plain &mut norm,))?;
                Ok(norm)
            }

            fn root_finding(g0: Column<$real>, g1: Column<$real>) -> Result<Root<$real>, Refusal> {
                extern "C" {
                    #[link_name = concat!("konsjift_root_finding", $suffix)]
                    fn call(
                        g0_rows: usize, g0_cols: usize, g0_lanes: usize, g0_col: usize, g0: *const $real, g0_len: usize,
                        g1_rows: usize, g1_cols: usize, g1_lanes: usize, g1_col: usize, g1: *const $real, g1_len: usize,
                        found: *mut u8, fraction: *mut $real, row: *mut i32,
                    ) -> u8;
                }
                let (mut found, mut fraction, mut row) = (0, 0.0, -1);
                answer(pass!(call; [] column g0, column g1, plain &mut found, plain &mut fraction, plain &mut row,))?;
                Ok(Root { found: found != 0, fraction, row })
            }
        }
    };
}

real!(f64, "_f64");
real!(f32, "_f32");
