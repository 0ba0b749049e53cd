//! The calls as plain loops over lanes, columns and rows, with no test of what they are handed.

/// y becomes a·x + b·y in every lane.
#[inline(never)]
pub fn axpy(rows: usize, a: f64, x: &[f64], b: f64, y: &mut [f64]) {
    if rows == 0 {
        return;
    }
    for (y, x) in y.chunks_exact_mut(rows).zip(x.chunks_exact(rows)) {
        if b == 0.0 {
            for (y, x) in y.iter_mut().zip(x) {
                *y = a * x;
            }
        } else {
            for (y, x) in y.iter_mut().zip(x) {
                *y = a * x + b * *y;
            }
        }
    }
}

/// y becomes a·T·x + b·y in every lane.
#[inline(never)]
pub fn gemv((rows, cols): (usize, usize), a: f64, table: &[f64], x: &[f64], b: f64, y: &mut [f64]) {
    let lanes = table.chunks_exact(rows * cols).zip(x.chunks_exact(cols));
    for ((block, x), y) in lanes.zip(y.chunks_exact_mut(rows)) {
        gemv_lane(rows, a, block, x, b, y);
    }
}

/// y becomes a·T·x + b·y in every lane, on the first columns, with one x for all lanes.
#[inline(never)]
pub fn gemv_cols(
    (rows, cols): (usize, usize),
    count: usize,
    a: f64,
    table: &[f64],
    x: &[f64],
    b: f64,
    y: &mut [f64],
) {
    let lanes = table
        .chunks_exact(rows * cols)
        .zip(y.chunks_exact_mut(rows));
    for (block, y) in lanes {
        gemv_lane(rows, a, &block[..rows * count], x, b, y);
    }
}

#[inline(always)]
fn gemv_lane(rows: usize, a: f64, block: &[f64], x: &[f64], b: f64, y: &mut [f64]) {
    for (j, (column, x)) in block.chunks_exact(rows).zip(x).enumerate() {
        if j > 0 {
            for (y, d) in y.iter_mut().zip(column) {
                *y += a * d * x;
            }
        } else if b == 0.0 {
            for (y, d) in y.iter_mut().zip(column) {
                *y = a * d * x;
            }
        } else {
            for (y, d) in y.iter_mut().zip(column) {
                *y = a * d * x + b * *y;
            }
        }
    }
}

/// Column l, of the first columns, gains (a·x_l)·p in every lane.
#[inline(never)]
pub fn ger_cols(
    (rows, cols): (usize, usize),
    count: usize,
    a: f64,
    x: &[f64],
    p: &[f64],
    table: &mut [f64],
) {
    let lanes = p
        .chunks_exact(rows)
        .zip(table.chunks_exact_mut(rows * cols));
    for (p, block) in lanes {
        let columns = block[..rows * count].chunks_exact_mut(rows);
        for (column, x) in columns.zip(x) {
            let factor = a * x;
            for (d, p) in column.iter_mut().zip(p) {
                *d += factor * p;
            }
        }
    }
}

/// Columns 0 to k − 1 are multiplied by m, or by m transposed.
#[inline(never)]
pub fn mul_cols_by(
    (rows, cols): (usize, usize),
    k: usize,
    m: &[f64],
    turned: bool,
    table: &mut [f64],
) {
    let mut old = [0.0; 8];
    for block in table.chunks_exact_mut(rows * cols) {
        for i in 0..rows {
            for l in 0..k {
                old[l] = block[l * rows + i];
            }
            for j in 0..k {
                let mut sum = 0.0;
                for l in 0..k {
                    sum += old[l] * m[if turned { l * k + j } else { j * k + l }];
                }
                block[j * rows + i] = sum;
            }
        }
    }
}

#[inline(never)]
pub fn update((rows, cols): (usize, usize), order: usize, d: &[f64], table: &mut [f64]) {
    for (lane, d) in d.chunks_exact(rows).enumerate() {
        let block = &mut table[lane * rows * cols..][..rows * cols];
        let (front, last) = block.split_at_mut((order + 2) * rows);
        let before = &front[(order + 1) * rows..];
        for ((last, before), d) in last.iter_mut().zip(before).zip(d) {
            *last = d - before;
        }
        for j in (0..order + 2).rev() {
            let (front, after) = block.split_at_mut((j + 1) * rows);
            for (to, from) in front[j * rows..].iter_mut().zip(after) {
                *to += *from;
            }
        }
    }
}

/// The transpose of the update: d becomes the sum of the columns; then sums from the left.
#[inline(never)]
pub fn update_transpose(
    (rows, cols): (usize, usize),
    order: usize,
    table: &mut [f64],
    d: &mut [f64],
) {
    for (lane, d) in d.chunks_exact_mut(rows).enumerate() {
        let block = &mut table[lane * rows * cols..][..rows * cols];
        d.copy_from_slice(&block[..rows]);
        for column in block[rows..(order + 3) * rows].chunks_exact(rows) {
            for (d, c) in d.iter_mut().zip(column) {
                *d += c;
            }
        }
        for j in 1..=order {
            let (front, rest) = block.split_at_mut(j * rows);
            for (to, from) in rest.iter_mut().zip(&front[(j - 1) * rows..]) {
                *to += from;
            }
        }
        let (front, last) = block.split_at_mut((order + 2) * rows);
        for (to, from) in front[(order + 1) * rows..].iter_mut().zip(last.iter_mut()) {
            *to = -*from;
            *from = 0.0;
        }
    }
}

#[inline(never)]
pub fn gather(list: &[usize], from_rows: usize, x: &[f64], y: &mut [f64]) {
    for (x, y) in x
        .chunks_exact(from_rows)
        .zip(y.chunks_exact_mut(list.len()))
    {
        for (y, &i) in y.iter_mut().zip(list) {
            *y = x[i];
        }
    }
}

#[inline(never)]
pub fn scatter(list: &[usize], to_rows: usize, x: &[f64], y: &mut [f64]) {
    for (x, y) in x.chunks_exact(list.len()).zip(y.chunks_exact_mut(to_rows)) {
        for (x, &i) in x.iter().zip(list) {
            y[i] = *x;
        }
    }
}

#[inline(never)]
pub fn squared_norm(rows: usize, x: &[f64], y: &[f64], atol: &[f64], rtol: f64) -> f64 {
    let mut most = 0.0f64;
    let lanes = x.chunks_exact(rows).zip(y.chunks_exact(rows));
    for ((x, y), atol) in lanes.zip(atol.chunks_exact(rows)) {
        let mut sum = 0.0;
        for ((x, y), atol) in x.iter().zip(y).zip(atol) {
            let term = x / (y.abs() * rtol + atol);
            sum += term * term;
        }
        most = most.max(sum / rows as f64);
    }
    most
}

/// Column j of every lane of the table becomes `of` itself and the vector's entry.
#[inline(never)]
pub fn into_column(
    (rows, cols): (usize, usize),
    j: usize,
    v: &[f64],
    table: &mut [f64],
    add: bool,
) {
    for (lane, v) in v.chunks_exact(rows).enumerate() {
        let column = &mut table[(lane * cols + j) * rows..][..rows];
        for (to, from) in column.iter_mut().zip(v) {
            *to = if add { *to + from } else { *from };
        }
    }
}

/// The vector gains column j of every lane of the table, or becomes it.
#[inline(never)]
pub fn from_column(
    (rows, cols): (usize, usize),
    j: usize,
    table: &[f64],
    v: &mut [f64],
    add: bool,
) {
    for (lane, v) in v.chunks_exact_mut(rows).enumerate() {
        let column = &table[(lane * cols + j) * rows..][..rows];
        for (to, from) in v.iter_mut().zip(column) {
            *to = if add { *to + from } else { *from };
        }
    }
}
