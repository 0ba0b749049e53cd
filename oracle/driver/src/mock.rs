//! The C interface by the definitions: stands in for the library, to try the header, the
//! declarations and the driver without it.

use crate::case::{Answer, Call, Case, Operand};
use crate::definition;
use crate::float::Real;

/// The scalars that a pointer and a length stand for; a null pointer has none.
unsafe fn scalars<T: Copy>(data: *const T, len: usize) -> Vec<T> {
    if len == 0 {
        return vec![];
    }
    std::slice::from_raw_parts(data, len).to_vec()
}

unsafe fn operand<T: Copy>(shape: [usize; 4], data: *const T, len: usize) -> Operand<T> {
    let [rows, cols, lanes, col] = shape;
    Operand {
        rows,
        cols,
        lanes,
        col,
        data: scalars(data, len),
    }
}

/// Answers the case, and writes what it writes to the destinations, one after the other.
unsafe fn carry_out<T: Real>(case: &Case<T>, destinations: &[(*mut T, usize)]) -> u8 {
    match definition::answer(case) {
        Answer::Refused(number) => number,
        Answer::Accepted(bits, _) => {
            let mut bits = bits.into_iter();
            for &(to, len) in destinations {
                for place in 0..len {
                    *to.add(place) = T::of_bits(bits.next().unwrap());
                }
            }
            0
        }
        Answer::Absent => unreachable!("the definitions answer every case"),
    }
}

macro_rules! interface {
    ($real:ident, $suffix:literal) => {
        pub mod $real {
            use super::*;

            #[export_name = concat!("konsjift_axpy", $suffix)]
            pub unsafe extern "C" fn axpy(
                a: $real,
                x_rows: usize,
                x_cols: usize,
                x_lanes: usize,
                x_col: usize,
                x: *const $real,
                x_len: usize,
                b: $real,
                y_rows: usize,
                y_cols: usize,
                y_lanes: usize,
                y_col: usize,
                y: *mut $real,
                y_len: usize,
            ) -> u8 {
                let mut case = Case::new(Call::Axpy);
                case.factors = vec![a, b];
                case.operands = vec![
                    operand([x_rows, x_cols, x_lanes, x_col], x, x_len),
                    operand([y_rows, y_cols, y_lanes, y_col], y, y_len),
                ];
                carry_out(&case, &[(y, y_len)])
            }

            #[export_name = concat!("konsjift_batched_axpy", $suffix)]
            pub unsafe extern "C" fn batched_axpy(
                a_rows: usize,
                a_cols: usize,
                a_lanes: usize,
                a_col: usize,
                a: *const $real,
                a_len: usize,
                x_rows: usize,
                x_cols: usize,
                x_lanes: usize,
                x_col: usize,
                x: *const $real,
                x_len: usize,
                b: $real,
                y_rows: usize,
                y_cols: usize,
                y_lanes: usize,
                y_col: usize,
                y: *mut $real,
                y_len: usize,
            ) -> u8 {
                let mut case = Case::new(Call::BatchedAxpy);
                case.factors = vec![b];
                case.operands = vec![
                    operand([a_rows, a_cols, a_lanes, a_col], a, a_len),
                    operand([x_rows, x_cols, x_lanes, x_col], x, x_len),
                    operand([y_rows, y_cols, y_lanes, y_col], y, y_len),
                ];
                carry_out(&case, &[(y, y_len)])
            }

            #[export_name = concat!("konsjift_gemv", $suffix)]
            pub unsafe extern "C" fn gemv(
                a: $real,
                table_rows: usize,
                table_cols: usize,
                table_lanes: usize,
                table: *const $real,
                table_len: usize,
                x_rows: usize,
                x_cols: usize,
                x_lanes: usize,
                x_col: usize,
                x: *const $real,
                x_len: usize,
                b: $real,
                y_rows: usize,
                y_cols: usize,
                y_lanes: usize,
                y_col: usize,
                y: *mut $real,
                y_len: usize,
            ) -> u8 {
                let mut case = Case::new(Call::Gemv);
                case.factors = vec![a, b];
                case.operands = vec![
                    operand([table_rows, table_cols, table_lanes, 0], table, table_len),
                    operand([x_rows, x_cols, x_lanes, x_col], x, x_len),
                    operand([y_rows, y_cols, y_lanes, y_col], y, y_len),
                ];
                carry_out(&case, &[(y, y_len)])
            }

            #[export_name = concat!("konsjift_gemv_cols", $suffix)]
            pub unsafe extern "C" fn gemv_cols(
                start: usize,
                end: usize,
                a: $real,
                table_rows: usize,
                table_cols: usize,
                table_lanes: usize,
                table: *const $real,
                table_len: usize,
                x: *const $real,
                x_len: usize,
                b: $real,
                y_rows: usize,
                y_cols: usize,
                y_lanes: usize,
                y_col: usize,
                y: *mut $real,
                y_len: usize,
            ) -> u8 {
                let mut case = Case::new(Call::GemvCols);
                case.counts = vec![start, end];
                case.factors = vec![a, b];
                case.numbers = scalars(x, x_len);
                case.operands = vec![
                    operand([table_rows, table_cols, table_lanes, 0], table, table_len),
                    operand([y_rows, y_cols, y_lanes, y_col], y, y_len),
                ];
                carry_out(&case, &[(y, y_len)])
            }

            #[export_name = concat!("konsjift_ger_cols", $suffix)]
            pub unsafe extern "C" fn ger_cols(
                start: usize,
                end: usize,
                a: $real,
                x: *const $real,
                x_len: usize,
                p_rows: usize,
                p_cols: usize,
                p_lanes: usize,
                p_col: usize,
                p: *const $real,
                p_len: usize,
                table_rows: usize,
                table_cols: usize,
                table_lanes: usize,
                table: *mut $real,
                table_len: usize,
            ) -> u8 {
                let mut case = Case::new(Call::GerCols);
                case.counts = vec![start, end];
                case.factors = vec![a];
                case.numbers = scalars(x, x_len);
                case.operands = vec![
                    operand([p_rows, p_cols, p_lanes, p_col], p, p_len),
                    operand([table_rows, table_cols, table_lanes, 0], table, table_len),
                ];
                carry_out(&case, &[(table, table_len)])
            }

            #[export_name = concat!("konsjift_mul_cols_by", $suffix)]
            pub unsafe extern "C" fn mul_cols_by(
                k: usize,
                m: *const $real,
                m_len: usize,
                table_rows: usize,
                table_cols: usize,
                table_lanes: usize,
                table: *mut $real,
                table_len: usize,
                _work: *mut $real,
                work_len: usize,
            ) -> u8 {
                let mut case = Case::new(Call::MulColsBy);
                case.counts = vec![k];
                case.numbers = scalars(m, m_len);
                case.work = work_len;
                case.operands = vec![operand(
                    [table_rows, table_cols, table_lanes, 0],
                    table,
                    table_len,
                )];
                carry_out(&case, &[(table, table_len)])
            }

            #[export_name = concat!("konsjift_mul_cols_by_transpose", $suffix)]
            pub unsafe extern "C" fn mul_cols_by_transpose(
                k: usize,
                m: *const $real,
                m_len: usize,
                table_rows: usize,
                table_cols: usize,
                table_lanes: usize,
                table: *mut $real,
                table_len: usize,
                _work: *mut $real,
                work_len: usize,
            ) -> u8 {
                let mut case = Case::new(Call::MulColsByTranspose);
                case.counts = vec![k];
                case.numbers = scalars(m, m_len);
                case.work = work_len;
                case.operands = vec![operand(
                    [table_rows, table_cols, table_lanes, 0],
                    table,
                    table_len,
                )];
                carry_out(&case, &[(table, table_len)])
            }

            #[export_name = concat!("konsjift_update_backward_diff", $suffix)]
            pub unsafe extern "C" fn update_backward_diff(
                order: usize,
                d_rows: usize,
                d_cols: usize,
                d_lanes: usize,
                d_col: usize,
                d: *const $real,
                d_len: usize,
                table_rows: usize,
                table_cols: usize,
                table_lanes: usize,
                table: *mut $real,
                table_len: usize,
            ) -> u8 {
                let mut case = Case::new(Call::UpdateBackwardDiff);
                case.counts = vec![order];
                case.operands = vec![
                    operand([d_rows, d_cols, d_lanes, d_col], d, d_len),
                    operand([table_rows, table_cols, table_lanes, 0], table, table_len),
                ];
                carry_out(&case, &[(table, table_len)])
            }

            #[export_name = concat!("konsjift_update_backward_diff_transpose", $suffix)]
            pub unsafe extern "C" fn update_backward_diff_transpose(
                order: usize,
                table_rows: usize,
                table_cols: usize,
                table_lanes: usize,
                table: *mut $real,
                table_len: usize,
                d_rows: usize,
                d_cols: usize,
                d_lanes: usize,
                d_col: usize,
                d: *mut $real,
                d_len: usize,
                _work: *mut $real,
                work_len: usize,
            ) -> u8 {
                let mut case = Case::new(Call::UpdateBackwardDiffTranspose);
                case.counts = vec![order];
                case.work = work_len;
                case.operands = vec![
                    operand([table_rows, table_cols, table_lanes, 0], table, table_len),
                    operand([d_rows, d_cols, d_lanes, d_col], d, d_len),
                ];
                carry_out(&case, &[(table, table_len), (d, d_len)])
            }

            #[export_name = concat!("konsjift_gather", $suffix)]
            pub unsafe extern "C" fn gather(
                list: *const usize,
                list_len: usize,
                x_rows: usize,
                x_cols: usize,
                x_lanes: usize,
                x_col: usize,
                x: *const $real,
                x_len: usize,
                y_rows: usize,
                y_cols: usize,
                y_lanes: usize,
                y_col: usize,
                y: *mut $real,
                y_len: usize,
            ) -> u8 {
                let mut case = Case::new(Call::Gather);
                case.list = scalars(list, list_len);
                case.operands = vec![
                    operand([x_rows, x_cols, x_lanes, x_col], x, x_len),
                    operand([y_rows, y_cols, y_lanes, y_col], y, y_len),
                ];
                carry_out(&case, &[(y, y_len)])
            }

            #[export_name = concat!("konsjift_scatter", $suffix)]
            pub unsafe extern "C" fn scatter(
                list: *const usize,
                list_len: usize,
                x_rows: usize,
                x_cols: usize,
                x_lanes: usize,
                x_col: usize,
                x: *const $real,
                x_len: usize,
                y_rows: usize,
                y_cols: usize,
                y_lanes: usize,
                y_col: usize,
                y: *mut $real,
                y_len: usize,
            ) -> u8 {
                let mut case = Case::new(Call::Scatter);
                case.list = scalars(list, list_len);
                case.operands = vec![
                    operand([x_rows, x_cols, x_lanes, x_col], x, x_len),
                    operand([y_rows, y_cols, y_lanes, y_col], y, y_len),
                ];
                carry_out(&case, &[(y, y_len)])
            }

            #[export_name = concat!("konsjift_squared_norm", $suffix)]
            pub unsafe extern "C" fn squared_norm(
                x_rows: usize,
                x_cols: usize,
                x_lanes: usize,
                x_col: usize,
                x: *const $real,
                x_len: usize,
                y_rows: usize,
                y_cols: usize,
                y_lanes: usize,
                y_col: usize,
                y: *const $real,
                y_len: usize,
                atol_rows: usize,
                atol_cols: usize,
                atol_lanes: usize,
                atol_col: usize,
                atol: *const $real,
                atol_len: usize,
                rtol: $real,
                norm: *mut $real,
            ) -> u8 {
                let mut case = Case::new(Call::SquaredNorm);
                case.factors = vec![rtol];
                case.operands = vec![
                    operand([x_rows, x_cols, x_lanes, x_col], x, x_len),
                    operand([y_rows, y_cols, y_lanes, y_col], y, y_len),
                    operand([atol_rows, atol_cols, atol_lanes, atol_col], atol, atol_len),
                ];
                carry_out(&case, &[(norm, 1)])
            }

            #[export_name = concat!("konsjift_root_finding", $suffix)]
            pub unsafe extern "C" fn root_finding(
                g0_rows: usize,
                g0_cols: usize,
                g0_lanes: usize,
                g0_col: usize,
                g0: *const $real,
                g0_len: usize,
                g1_rows: usize,
                g1_cols: usize,
                g1_lanes: usize,
                g1_col: usize,
                g1: *const $real,
                g1_len: usize,
                found: *mut u8,
                fraction: *mut $real,
                row: *mut i32,
            ) -> u8 {
                let mut case = Case::new(Call::RootFinding);
                case.operands = vec![
                    operand([g0_rows, g0_cols, g0_lanes, g0_col], g0, g0_len),
                    operand([g1_rows, g1_cols, g1_lanes, g1_col], g1, g1_len),
                ];
                if let Answer::Accepted(_, Some((some, place))) = definition::answer(&case) {
                    *found = some.into();
                    *row = place;
                }
                carry_out(&case, &[(fraction, 1)])
            }
        }
    };
}

interface!(f64, "_f64");
interface!(f32, "_f32");
