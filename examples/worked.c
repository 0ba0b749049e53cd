/* The worked figures through the C interface: examples/run.sh c builds and runs this file. */
#include "konsjift.h"
#include <stdio.h>

static void show(const char *what, uint8_t answer, const double *values, size_t count)
{
    printf("%s: %u", what, (unsigned)answer);
    for (size_t i = 0; i < count; i++)
        printf(" %g", values[i]);
    printf("\n");
}

int main(void)
{
    double work[8] = {0};
    uint8_t answer;

    /* Two lanes into six: each serves three, side by side. */
    double two[2] = {0, 1}, six[6] = {9, 9, 9, 9, 9, 9};
    answer = konsjift_axpy_f64(1.0, 1, 1, 2, 0, two, 2, 0.0, 1, 1, 6, 0, six, 6);
    show("two lanes into six", answer, six, 6);

    /* Four lanes do not go into six. */
    double four[4] = {0, 1, 2, 3};
    answer = konsjift_axpy_f64(1.0, 1, 1, 4, 0, four, 4, 0.0, 1, 1, 6, 0, six, 6);
    show("four lanes into six", answer, six, 6);

    /* A table of one row and three columns takes the difference 7. */
    double row[3] = {2, 3, 5}, next[1] = {7};
    answer = konsjift_update_backward_diff_f64(0, 1, 1, 1, 0, next, 1, 1, 3, 1, row, 3);
    show("update of (2, 3, 5) with 7", answer, row, 3);

    /* And its transpose. */
    double weights[3] = {1, 10, 100}, sum[1] = {0};
    answer = konsjift_update_backward_diff_transpose_f64(
        0, 1, 3, 1, weights, 3, 1, 1, 1, 0, sum, 1, work, 8);
    show("transpose of (1, 10, 100)", answer, weights, 3);
    show("  and the sum", answer, sum, 1);

    /* The small matrix lies column by column. */
    double pair[2] = {5, 7}, numbers[4] = {1, 3, 2, 4};
    answer = konsjift_mul_cols_by_f64(2, numbers, 4, 1, 2, 1, pair, 2, work, 8);
    show("(5, 7) times 1, 3, 2, 4", answer, pair, 2);

    /* Column 1 of a table as the destination; column 0 is kept. */
    double table[4] = {1, 2, 3, 4}, x[2] = {10, 20};
    answer = konsjift_axpy_f64(1.0, 2, 1, 1, 0, x, 2, 1.0, 2, 2, 1, 1, table, 4);
    show("column 1 of (1, 2 | 3, 4) gains (10, 20)", answer, table, 4);

    /* Of a repeated index the last entry stays. */
    double to[2] = {0, 5}, from[2] = {10, 20};
    size_t list[2] = {0, 0};
    answer = konsjift_scatter_f64(list, 2, 2, 1, 1, 0, from, 2, 2, 1, 1, 0, to, 2);
    show("scatter 0, 0 of (10, 20)", answer, to, 2);

    double g0[3] = {1, -1, 2}, g1[3] = {-1, 3, 0}, fraction = 0;
    uint8_t found = 0;
    int32_t place = -1;
    answer = konsjift_root_finding_f64(3, 1, 1, 0, g0, 3, 3, 1, 1, 0, g1, 3, &found, &fraction, &place);
    printf("roots: %u found %u fraction %g row %d\n",
           (unsigned)answer, (unsigned)found, fraction, (int)place);

    /* Nine columns are one too many. */
    double wide[9] = {0}, ones[9] = {1, 1, 1, 1, 1, 1, 1, 1, 1}, total[1] = {0};
    answer = konsjift_gemv_cols_f64(0, 8, 1.0, 1, 9, 1, wide, 9, ones, 9, 0.0, 1, 1, 1, 0, total, 1);
    show("eight columns", answer, total, 1);
    answer = konsjift_gemv_cols_f64(0, 9, 1.0, 1, 9, 1, wide, 9, ones, 9, 0.0, 1, 1, 1, 0, total, 1);
    show("nine columns", answer, total, 1);
    return 0;
}
