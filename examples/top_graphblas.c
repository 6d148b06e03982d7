/* The ten rows with the highest totals, by SuiteSparse:GraphBLAS: a line `row entries total` each, the highest first.
 *
 *     cc -O2 examples/top_graphblas.c -lgraphblas -o top_graphblas
 *     hhm export packets.snap | ./top_graphblas
 *
 * GraphBLAS holds all that hhm does: 2^60 rows and columns, of which few have a cell, and counts of 64 bits. Rows count
 * from 0. */
#include <GraphBLAS.h>
#include <inttypes.h>
#include <stdio.h>
#include <stdlib.h>

typedef struct {
    GrB_Index row;
    uint64_t entries, total;
} Row;

static void need(int is_so, const char *words) {
    if (!is_so) {
        fprintf(stderr, "top_graphblas: %s\n", words);
        exit(1);
    }
}

/* The matrix of the text that `hhm export` writes. */
static GrB_Matrix read_matrix(FILE *text) {
    uint64_t rows, cols, entries;
    need(fscanf(text, "%%%%MatrixMarket matrix coordinate integer general %" SCNu64 " %" SCNu64 " %" SCNu64, &rows,
                &cols, &entries) == 3, "no text of hhm");
    GrB_Index *i = malloc((entries + 1) * sizeof *i), *j = malloc((entries + 1) * sizeof *j);
    uint64_t *counts = malloc((entries + 1) * sizeof *counts);
    need(i && j && counts, "no memory");
    for (uint64_t k = 0; k < entries; k++) {
        need(fscanf(text, "%" SCNu64 " %" SCNu64 " %" SCNu64, &i[k], &j[k], &counts[k]) == 3, "the text isn't whole");
        i[k]--;
        j[k]--;
    }
    GrB_Matrix sum;
    need(GrB_Matrix_new(&sum, GrB_UINT64, rows, cols) == GrB_SUCCESS, "no matrix");
    need(GrB_Matrix_build_UINT64(sum, i, j, counts, entries, GrB_PLUS_UINT64) == GrB_SUCCESS, "no cells");
    free(i);
    free(j);
    free(counts);
    return sum;
}

/* What the entries of each row add up to, as pairs of a row and a number; `count` rows have one. */
static void row_sums(GrB_Matrix matrix, GrB_Index **rows, uint64_t **sums, GrB_Index *count) {
    GrB_Index size;
    GrB_Vector vector;
    need(GrB_Matrix_nrows(&size, matrix) == GrB_SUCCESS, "no rows");
    need(GrB_Vector_new(&vector, GrB_UINT64, size) == GrB_SUCCESS, "no vector");
    need(GrB_Matrix_reduce_Monoid(vector, NULL, NULL, GrB_PLUS_MONOID_UINT64, matrix, NULL) == GrB_SUCCESS, "no sums");
    need(GrB_Vector_nvals(count, vector) == GrB_SUCCESS, "no number");
    *rows = malloc((*count + 1) * sizeof **rows);
    *sums = malloc((*count + 1) * sizeof **sums);
    need(*rows && *sums, "no memory");
    need(GrB_Vector_extractTuples_UINT64(*rows, *sums, count, vector) == GrB_SUCCESS, "no sums");
    GrB_Vector_free(&vector);
}

/* By total downwards, and of equal ones the first row first. */
static int order(const void *left, const void *right) {
    const Row *a = left, *b = right;
    if (a->total != b->total)
        return a->total > b->total ? -1 : 1;
    return a->row < b->row ? -1 : a->row > b->row;
}

int main(void) {
    need(GrB_init(GrB_NONBLOCKING) == GrB_SUCCESS, "no GraphBLAS");
    GrB_Matrix sum = read_matrix(stdin), ones;
    GrB_Index rows, cols, count, *numbers, *same;
    uint64_t *totals, *entries;
    GrB_Matrix_nrows(&rows, sum);
    GrB_Matrix_ncols(&cols, sum);
    need(GrB_Matrix_new(&ones, GrB_UINT64, rows, cols) == GrB_SUCCESS, "no matrix");
    need(GrB_Matrix_apply(ones, NULL, NULL, GxB_ONE_UINT64, sum, NULL) == GrB_SUCCESS, "no ones");
    row_sums(sum, &numbers, &totals, &count);
    row_sums(ones, &same, &entries, &count);
    Row *all = malloc((count + 1) * sizeof *all);
    need(all != NULL, "no memory");
    for (GrB_Index k = 0; k < count; k++)
        all[k] = (Row){numbers[k], entries[k], totals[k]};
    qsort(all, count, sizeof *all, order);
    for (GrB_Index k = 0; k < count && k < 10; k++)
        printf("%" PRIu64 " %" PRIu64 " %" PRIu64 "\n", all[k].row, all[k].entries, all[k].total);
    GrB_finalize();
    return 0;
}
