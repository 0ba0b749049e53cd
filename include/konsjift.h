/* Konsjift: vectors, tables of differences and their transposes, in lanes. The C interface.
 *
 * Every call tests all that it is handed before it writes, and answers a number:
 *
 *    0  accepted; every entry is as the call's page says
 *    1  a shape has no lanes
 *    2  a shape exceeds 65,536 rows, 1,024 columns or 4,096 lanes
 *    3  memory does not hold exactly its shape's scalars, or work memory holds fewer than 8
 *    4  a column is outside its table, the end of a range or k exceeds the table's columns, a
 *       range starts after its end, or order + 2 is not below the table's columns
 *    5  a range has more than 8 columns, k is more than 8, or the order of a transpose is
 *       more than 5
 *    6  the numbers are not k·k, or are fewer than the columns of the range
 *    7  row or column counts that must agree differ, or a batched factor has not one row
 *    8  lane counts do not broadcast, or differ where they must be the same
 *    9  a list's length is not the row count that it must have
 *   10  an index is outside its vector
 *   11  the lanes of konsjift_root_finding differ in what they find
 *
 * The answer is the first number whose sentence fits; each is tested over all operands before the
 * next. After a refusal all memory is as it was, results and work memory too.
 *
 * OPERANDS
 *
 * A table of r rows, c columns and n lanes is memory of exactly r·c·n scalars; cell (i, j) of
 * lane b lies at (b·c + j)·r + i. Zero rows or columns are lawful. A table NAME is passed as
 *
 *    size_t NAME_rows    0 .. 65536
 *    size_t NAME_cols    0 .. 1024
 *    size_t NAME_lanes   1 .. 4096
 *    NAME, NAME_len      the memory and its count of scalars, NAME_rows·NAME_cols·NAME_lanes
 *
 * A vector is column NAME_col, below NAME_cols, of every lane of such a table, so a column of a
 * table is an operand without being copied. A whole vector has NAME_cols 1 and NAME_col 0; row i
 * of lane b lies at b·NAME_rows + i. A vector NAME is passed as
 *
 *    size_t NAME_rows, NAME_cols, NAME_lanes, NAME_col, then NAME and NAME_len.
 *
 * A written vector changes in its column only. An operand of s lanes broadcasts into n if s = n,
 * s = 1, or n is a multiple of s; lane b of n then reads lane ⌊b·s/n⌋.
 *
 * Numbers, lists and work memory are a pointer and then a count. Work memory holds 8 scalars or
 * more, and what it holds after an accepted call is not said; more of it may be faster.
 *
 * WHAT THE CALLER OWES
 *
 * A pointer is not null, is aligned for its type, and reaches as many scalars as its count says:
 * where the count is 0, any such pointer will do. What a call writes (destination, work memory,
 * results) overlaps nothing else that it is handed. Floating-point arithmetic rounds to nearest,
 * ties to even, and keeps subnormal numbers, as a C program starts.
 *
 * The calls keep nothing between them, allocate nothing and do not print: they may be made from
 * several threads on memory that is not shared.
 *
 * NUMBERS
 *
 * Each operation is rounded once, and sums are formed in the order that a page states. Every
 * call stands for double (_f64) and, with float in its place, for float (_f32). "b is zero"
 * holds for 0.0 and for -0.0. Which not-a-number an entry holds is not said.
 */
#ifndef KONSJIFT_H
#define KONSJIFT_H

#include <stddef.h>
#include <stdint.h>

#ifdef __cplusplus
extern "C" {
#endif

/* AXPY                                                                          y := a·x + b·y
 *
 * Each entry y_i of each lane becomes a·x_i + b·y_i; where b is zero it becomes a·x_i, and y is
 * not read. Reference BLAS fixes b as 1, and does nothing where a is 0; here a·x_i is always
 * formed, so 0 times an infinity is not a number.
 *
 *   a, b   factors
 *   x      vector of y's rows; its lanes broadcast into y's
 *   y      vector; written
 *
 * Refusals, in this order:
 *   1, 2, 3   shapes and memory of x, y
 *   4         x_col >= x_cols, or y_col >= y_cols
 *   7         x_rows != y_rows
 *   8         x's lanes do not broadcast into y's
 */
uint8_t konsjift_axpy_f64(
    double a,
    size_t x_rows, size_t x_cols, size_t x_lanes, size_t x_col, const double *x, size_t x_len,
    double b,
    size_t y_rows, size_t y_cols, size_t y_lanes, size_t y_col, double *y, size_t y_len);
uint8_t konsjift_axpy_f32(
    float a,
    size_t x_rows, size_t x_cols, size_t x_lanes, size_t x_col, const float *x, size_t x_len,
    float b,
    size_t y_rows, size_t y_cols, size_t y_lanes, size_t y_col, float *y, size_t y_len);

/* BATCHED_AXPY                                             y := a·x + b·y, one a for each lane
 *
 * As axpy, with the one row of a's lane as the factor of that lane of y.
 *
 *   a      vector of one row and of y's lanes
 *   x      vector of y's rows; its lanes broadcast into y's
 *   b      factor
 *   y      vector; written
 *
 * Refusals, in this order:
 *   1, 2, 3   shapes and memory of a, x, y
 *   4         a column of a, x or y is outside
 *   7         a_rows != 1, or x_rows != y_rows
 *   8         a_lanes != y_lanes, or x's lanes do not broadcast into y's
 */
uint8_t konsjift_batched_axpy_f64(
    size_t a_rows, size_t a_cols, size_t a_lanes, size_t a_col, const double *a, size_t a_len,
    size_t x_rows, size_t x_cols, size_t x_lanes, size_t x_col, const double *x, size_t x_len,
    double b,
    size_t y_rows, size_t y_cols, size_t y_lanes, size_t y_col, double *y, size_t y_len);
uint8_t konsjift_batched_axpy_f32(
    size_t a_rows, size_t a_cols, size_t a_lanes, size_t a_col, const float *a, size_t a_len,
    size_t x_rows, size_t x_cols, size_t x_lanes, size_t x_col, const float *x, size_t x_len,
    float b,
    size_t y_rows, size_t y_cols, size_t y_lanes, size_t y_col, float *y, size_t y_len);

/* GEMV                                                                      y := a·T·x + b·y
 *
 * Column 0 of the table T gives (a·T_i0)·x_0 + b·y_i, by axpy's rule for b; each later column j
 * then adds (a·T_ij)·x_j, from column 1 to the last. With no columns y_i becomes b·y_i, or 0
 * where b is zero. Reference BLAS leaves y alone there; it starts from b·y, adds T_ij·(a·x_j)
 * with a·x_j formed first, and adds nothing where a is 0.
 *
 *   a, b    factors
 *   table   table of y's rows; its lanes broadcast into y's
 *   x       vector of as many rows as the table has columns; its lanes broadcast into y's
 *   y       vector; written
 *
 * Refusals, in this order:
 *   1, 2, 3   shapes and memory of table, x, y
 *   4         a column of x or y is outside
 *   7         table_rows != y_rows, or x_rows != table_cols
 *   8         the table's or x's lanes do not broadcast into y's
 */
uint8_t konsjift_gemv_f64(
    double a,
    size_t table_rows, size_t table_cols, size_t table_lanes, const double *table, size_t table_len,
    size_t x_rows, size_t x_cols, size_t x_lanes, size_t x_col, const double *x, size_t x_len,
    double b,
    size_t y_rows, size_t y_cols, size_t y_lanes, size_t y_col, double *y, size_t y_len);
uint8_t konsjift_gemv_f32(
    float a,
    size_t table_rows, size_t table_cols, size_t table_lanes, const float *table, size_t table_len,
    size_t x_rows, size_t x_cols, size_t x_lanes, size_t x_col, const float *x, size_t x_len,
    float b,
    size_t y_rows, size_t y_cols, size_t y_lanes, size_t y_col, float *y, size_t y_len);

/* GEMV_COLS                                y := a·T[start .. end)·x + b·y, one x for all lanes
 *
 * As gemv on columns start to end - 1 of the table, with x_0 for column start.
 *
 *   start   first column
 *   end     column after the last; at most 8 after start
 *   a, b    factors
 *   table   table of y's rows; its lanes broadcast into y's
 *   x       end - start numbers or more; those after are not read
 *   y       vector; written
 *
 * Refusals, in this order:
 *   1, 2, 3   shapes and memory of table, y
 *   4         y_col >= y_cols, end > table_cols, or start > end
 *   5         end - start > 8
 *   6         x_len < end - start
 *   7         table_rows != y_rows
 *   8         the table's lanes do not broadcast into y's
 */
uint8_t konsjift_gemv_cols_f64(
    size_t start, size_t end, double a,
    size_t table_rows, size_t table_cols, size_t table_lanes, const double *table, size_t table_len,
    const double *x, size_t x_len,
    double b,
    size_t y_rows, size_t y_cols, size_t y_lanes, size_t y_col, double *y, size_t y_len);
uint8_t konsjift_gemv_cols_f32(
    size_t start, size_t end, float a,
    size_t table_rows, size_t table_cols, size_t table_lanes, const float *table, size_t table_len,
    const float *x, size_t x_len,
    float b,
    size_t y_rows, size_t y_cols, size_t y_lanes, size_t y_col, float *y, size_t y_len);

/* GER_COLS                          T[start .. end) := T + a·p·xᵀ, one x for all lanes
 *
 * Cell (i, start + l) of each lane gains (a·x_l)·p_i. The transpose of gemv_cols. Reference BLAS
 * does nothing where a is 0, nor to columns whose x_l is 0; here every product is formed.
 *
 *   start   first column
 *   end     column after the last; at most 8 after start
 *   a       factor
 *   x       end - start numbers or more; those after are not read
 *   p       vector of the table's rows; its lanes broadcast into the table's
 *   table   table; columns start to end - 1 are written
 *
 * Refusals, in this order:
 *   1, 2, 3   shapes and memory of p, table
 *   4         p_col >= p_cols, end > table_cols, or start > end
 *   5         end - start > 8
 *   6         x_len < end - start
 *   7         p_rows != table_rows
 *   8         p's lanes do not broadcast into the table's
 */
uint8_t konsjift_ger_cols_f64(
    size_t start, size_t end, double a,
    const double *x, size_t x_len,
    size_t p_rows, size_t p_cols, size_t p_lanes, size_t p_col, const double *p, size_t p_len,
    size_t table_rows, size_t table_cols, size_t table_lanes, double *table, size_t table_len);
uint8_t konsjift_ger_cols_f32(
    size_t start, size_t end, float a,
    const float *x, size_t x_len,
    size_t p_rows, size_t p_cols, size_t p_lanes, size_t p_col, const float *p, size_t p_len,
    size_t table_rows, size_t table_cols, size_t table_lanes, float *table, size_t table_len);

/* MUL_COLS_BY                                                      T[0 .. k) := T[0 .. k)·M
 *
 * The new entry of column j, below k, is the sum of the old entry of column l, in the same row,
 * times m[j·k + l], for l from 0 to k - 1, starting from zero: m holds M column by column.
 * Columns from k on are kept. k = 0 changes nothing.
 *
 *   k       0 .. 8, and at most the table's columns
 *   m       exactly k·k numbers
 *   table   table; columns 0 to k - 1 are written
 *   work    8 scalars or more
 *
 * Refusals, in this order:
 *   1, 2, 3   shape and memory of table; work_len < 8
 *   4         k > table_cols
 *   5         k > 8
 *   6         m_len != k·k
 */
uint8_t konsjift_mul_cols_by_f64(
    size_t k, const double *m, size_t m_len,
    size_t table_rows, size_t table_cols, size_t table_lanes, double *table, size_t table_len,
    double *work, size_t work_len);
uint8_t konsjift_mul_cols_by_f32(
    size_t k, const float *m, size_t m_len,
    size_t table_rows, size_t table_cols, size_t table_lanes, float *table, size_t table_len,
    float *work, size_t work_len);

/* MUL_COLS_BY_TRANSPOSE                                            T[0 .. k) := T[0 .. k)·Mᵀ
 *
 * As mul_cols_by, with m[l·k + j] in the place of m[j·k + l]. Same arguments, same refusals.
 */
uint8_t konsjift_mul_cols_by_transpose_f64(
    size_t k, const double *m, size_t m_len,
    size_t table_rows, size_t table_cols, size_t table_lanes, double *table, size_t table_len,
    double *work, size_t work_len);
uint8_t konsjift_mul_cols_by_transpose_f32(
    size_t k, const float *m, size_t m_len,
    size_t table_rows, size_t table_cols, size_t table_lanes, float *table, size_t table_len,
    float *work, size_t work_len);

/* UPDATE_BACKWARD_DIFF                         a table of backward differences takes the next one
 *
 * Column order + 2 becomes d minus column order + 1; then, for j from order + 1 down to 0,
 * column j gains column j + 1 as it is by then. Later columns are kept.
 *
 *   order   order + 2 is below the table's columns
 *   d       vector of the table's rows; its lanes broadcast into the table's
 *   table   table; columns 0 to order + 2 are written
 *
 * Refusals, in this order:
 *   1, 2, 3   shapes and memory of d, table
 *   4         d_col >= d_cols, or order + 2 >= table_cols (also where order + 2 would wrap)
 *   7         d_rows != table_rows
 *   8         d's lanes do not broadcast into the table's
 */
uint8_t konsjift_update_backward_diff_f64(
    size_t order,
    size_t d_rows, size_t d_cols, size_t d_lanes, size_t d_col, const double *d, size_t d_len,
    size_t table_rows, size_t table_cols, size_t table_lanes, double *table, size_t table_len);
uint8_t konsjift_update_backward_diff_f32(
    size_t order,
    size_t d_rows, size_t d_cols, size_t d_lanes, size_t d_col, const float *d, size_t d_len,
    size_t table_rows, size_t table_cols, size_t table_lanes, float *table, size_t table_len);

/* UPDATE_BACKWARD_DIFF_TRANSPOSE                              the transpose of the update
 *
 * d becomes the sum of columns 0 to order + 2, from the first to the last: gemv_cols with a and
 * x all ones and b zero. Then those columns are multiplied, as by mul_cols_by with k = order + 3,
 * by the matrix whose column j, for j up to order, has ones in rows 0 to j, whose column
 * order + 1 has -1 in row order + 2, and which is zero elsewhere. In exact arithmetic column j,
 * up to order, becomes the sum of columns 0 to j, column order + 1 the negated column order + 2,
 * and column order + 2 zero. With infinities and -0.0 the products by zeros and ones show.
 *
 *   order   0 .. 5, and order + 2 is below the table's columns
 *   table   table; its lanes broadcast into d's; columns 0 to order + 2 are written
 *   d       vector of the table's rows; written
 *   work    8 scalars or more
 *
 * Refusals, in this order:
 *   1, 2, 3   shapes and memory of table, d; work_len < 8
 *   4         d_col >= d_cols, or order + 2 >= table_cols (also where order + 2 would wrap)
 *   5         order > 5
 *   7         d_rows != table_rows
 *   8         the table's lanes do not broadcast into d's
 */
uint8_t konsjift_update_backward_diff_transpose_f64(
    size_t order,
    size_t table_rows, size_t table_cols, size_t table_lanes, double *table, size_t table_len,
    size_t d_rows, size_t d_cols, size_t d_lanes, size_t d_col, double *d, size_t d_len,
    double *work, size_t work_len);
uint8_t konsjift_update_backward_diff_transpose_f32(
    size_t order,
    size_t table_rows, size_t table_cols, size_t table_lanes, float *table, size_t table_len,
    size_t d_rows, size_t d_cols, size_t d_lanes, size_t d_col, float *d, size_t d_len,
    float *work, size_t work_len);

/* GATHER                                                                   y_i := x_list(i)
 *
 *   list   as many indices as y has rows, each below x's rows; repeats are lawful
 *   x      vector; its lanes broadcast into y's
 *   y      vector; written
 *
 * Refusals, in this order:
 *   1, 2, 3   shapes and memory of x, y
 *   4         a column of x or y is outside
 *   8         x's lanes do not broadcast into y's
 *   9         list_len != y_rows
 *   10        an index is not below x_rows
 */
uint8_t konsjift_gather_f64(
    const size_t *list, size_t list_len,
    size_t x_rows, size_t x_cols, size_t x_lanes, size_t x_col, const double *x, size_t x_len,
    size_t y_rows, size_t y_cols, size_t y_lanes, size_t y_col, double *y, size_t y_len);
uint8_t konsjift_gather_f32(
    const size_t *list, size_t list_len,
    size_t x_rows, size_t x_cols, size_t x_lanes, size_t x_col, const float *x, size_t x_len,
    size_t y_rows, size_t y_cols, size_t y_lanes, size_t y_col, float *y, size_t y_len);

/* SCATTER                                                                  y_list(i) := x_i
 *
 * In list order, so that of a repeated index the last entry stays. Rows that the list does not
 * name are kept.
 *
 *   list   as many indices as x has rows, each below y's rows
 *   x      vector; its lanes broadcast into y's
 *   y      vector; written
 *
 * Refusals, in this order:
 *   1, 2, 3   shapes and memory of x, y
 *   4         a column of x or y is outside
 *   8         x's lanes do not broadcast into y's
 *   9         list_len != x_rows
 *   10        an index is not below y_rows
 */
uint8_t konsjift_scatter_f64(
    const size_t *list, size_t list_len,
    size_t x_rows, size_t x_cols, size_t x_lanes, size_t x_col, const double *x, size_t x_len,
    size_t y_rows, size_t y_cols, size_t y_lanes, size_t y_col, double *y, size_t y_len);
uint8_t konsjift_scatter_f32(
    const size_t *list, size_t list_len,
    size_t x_rows, size_t x_cols, size_t x_lanes, size_t x_col, const float *x, size_t x_len,
    size_t y_rows, size_t y_cols, size_t y_lanes, size_t y_col, float *y, size_t y_len);

/* SQUARED_NORM                              the mean over i of (x_i / (|y_i|·rtol + atol_i))²
 *
 * A lane's sum goes from zero through the rows in order, and is then divided by the row count:
 * with no rows that is 0/0, not a number. Of one lane that is the answer. Several lanes give the
 * greatest, starting from zero; a lane that is not a number is passed over.
 *
 *   x      vector; its lanes are those that count
 *   y      vector of x's rows; its lanes broadcast into x's
 *   atol   vector of x's rows; its lanes broadcast into x's
 *   rtol   factor
 *   norm   the answer; left as it was by a refusal
 *
 * Refusals, in this order:
 *   1, 2, 3   shapes and memory of x, y, atol
 *   4         a column of x, y or atol is outside
 *   7         y_rows or atol_rows is not x_rows
 *   8         y's or atol's lanes do not broadcast into x's
 */
uint8_t konsjift_squared_norm_f64(
    size_t x_rows, size_t x_cols, size_t x_lanes, size_t x_col, const double *x, size_t x_len,
    size_t y_rows, size_t y_cols, size_t y_lanes, size_t y_col, const double *y, size_t y_len,
    size_t atol_rows, size_t atol_cols, size_t atol_lanes, size_t atol_col,
    const double *atol, size_t atol_len,
    double rtol, double *norm);
uint8_t konsjift_squared_norm_f32(
    size_t x_rows, size_t x_cols, size_t x_lanes, size_t x_col, const float *x, size_t x_len,
    size_t y_rows, size_t y_cols, size_t y_lanes, size_t y_col, const float *y, size_t y_len,
    size_t atol_rows, size_t atol_cols, size_t atol_lanes, size_t atol_col,
    const float *atol, size_t atol_len,
    float rtol, float *norm);

/* ROOT_FINDING                              where g went through zero, from g0 before to g1 after
 *
 * found is 1 if some g1_i is zero, else 0. A row with g0_i·g1_i < 0 has the fraction
 * |g1_i / (g1_i - g0_i)|; one above the best so far, from 0, replaces it, with its row. Where
 * there is none the fraction is 0 and the row -1. All lanes must find the same.
 *
 *   g0         vector; its lanes are those that count
 *   g1         vector of g0's rows; its lanes broadcast into g0's
 *   found      0 or 1
 *   fraction   the greatest fraction
 *   row        its row, or -1
 *
 * found, fraction and row are left as they were by a refusal. Refusals, in this order:
 *   1, 2, 3   shapes and memory of g0, g1
 *   4         a column of g0 or g1 is outside
 *   7         g1_rows != g0_rows
 *   8         g1's lanes do not broadcast into g0's
 *   11        two lanes differ in found, fraction or row
 */
uint8_t konsjift_root_finding_f64(
    size_t g0_rows, size_t g0_cols, size_t g0_lanes, size_t g0_col, const double *g0, size_t g0_len,
    size_t g1_rows, size_t g1_cols, size_t g1_lanes, size_t g1_col, const double *g1, size_t g1_len,
    uint8_t *found, double *fraction, int32_t *row);
uint8_t konsjift_root_finding_f32(
    size_t g0_rows, size_t g0_cols, size_t g0_lanes, size_t g0_col, const float *g0, size_t g0_len,
    size_t g1_rows, size_t g1_cols, size_t g1_lanes, size_t g1_col, const float *g1, size_t g1_len,
    uint8_t *found, float *fraction, int32_t *row);

#ifdef __cplusplus
}
#endif

#endif
