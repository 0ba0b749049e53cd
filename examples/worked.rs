//! The worked figures through the Rust declarations: examples/run.sh rust builds and runs this file.

#[path = "../bindings/rust/konsjift.rs"]
mod konsjift;

use konsjift::{Column, ColumnMut, Real, Refusal, Shape, Table, TableMut};

fn row(cols: usize) -> Shape {
    Shape {
        rows: 1,
        cols,
        lanes: 1,
    }
}

fn show(what: &str, result: Result<(), Refusal>, values: &[f64]) {
    let number = result.err().map_or(0, Refusal::number);
    print!("{what}: {number}");
    for value in values {
        print!(" {value}");
    }
    println!();
}

fn main() {
    let mut work = [0.0; 8];

    // Two lanes into six: each serves three, side by side.
    let mut six = [9.0; 6];
    let x = Column::vector(1, 2, &[0.0, 1.0]);
    let result = f64::axpy(1.0, x, 0.0, ColumnMut::vector(1, 6, &mut six));
    show("two lanes into six", result, &six);

    // Four lanes do not go into six.
    let x = Column::vector(1, 4, &[0.0, 1.0, 2.0, 3.0]);
    let result = f64::axpy(1.0, x, 0.0, ColumnMut::vector(1, 6, &mut six));
    show("four lanes into six", result, &six);

    // A table of one row and three columns takes the difference 7.
    let mut data = [2.0, 3.0, 5.0];
    let table = TableMut {
        shape: row(3),
        data: &mut data,
    };
    let result = f64::update_backward_diff(0, Column::vector(1, 1, &[7.0]), table);
    show("update of (2, 3, 5) with 7", result, &data);

    // And its transpose.
    let (mut data, mut sum) = ([1.0, 10.0, 100.0], [0.0]);
    let table = TableMut {
        shape: row(3),
        data: &mut data,
    };
    let d = ColumnMut::vector(1, 1, &mut sum);
    let result = f64::update_backward_diff_transpose(0, table, d, &mut work);
    show("transpose of (1, 10, 100)", result, &data);
    show("  and the sum", result, &sum);

    // The small matrix lies column by column.
    let mut data = [5.0, 7.0];
    let table = TableMut {
        shape: row(2),
        data: &mut data,
    };
    let result = f64::mul_cols_by(2, &[1.0, 3.0, 2.0, 4.0], table, &mut work);
    show("(5, 7) times 1, 3, 2, 4", result, &data);

    // Column 1 of a table as the destination; column 0 is kept.
    let mut data = [1.0, 2.0, 3.0, 4.0];
    let shape = Shape {
        rows: 2,
        cols: 2,
        lanes: 1,
    };
    let y = ColumnMut {
        shape,
        col: 1,
        data: &mut data,
    };
    let result = f64::axpy(1.0, Column::vector(2, 1, &[10.0, 20.0]), 1.0, y);
    show("column 1 of (1, 2 | 3, 4) gains (10, 20)", result, &data);

    // Of a repeated index the last entry stays.
    let mut to = [0.0, 5.0];
    let from = Column::vector(2, 1, &[10.0, 20.0]);
    let result = f64::scatter(&[0, 0], from, ColumnMut::vector(2, 1, &mut to));
    show("scatter 0, 0 of (10, 20)", result, &to);

    let g0 = Column::vector(3, 1, &[1.0, -1.0, 2.0]);
    let g1 = Column::vector(3, 1, &[-1.0, 3.0, 0.0]);
    match f64::root_finding(g0, g1) {
        Ok(root) => println!(
            "roots: 0 found {} fraction {} row {}",
            u8::from(root.found),
            root.fraction,
            root.row
        ),
        Err(refusal) => println!("roots: {} ({refusal})", refusal.number()),
    }

    // Nine columns are one too many.
    let mut total = [0.0];
    for (end, what) in [(8, "eight columns"), (9, "nine columns")] {
        let table = Table {
            shape: row(9),
            data: &[0.0; 9],
        };
        let y = ColumnMut::vector(1, 1, &mut total);
        let result = f64::gemv_cols(0, end, 1.0, table, &[1.0; 9], 0.0, y);
        show(what, result, &total);
    }
}
