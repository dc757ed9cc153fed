/*
 * Reads a terrain row by row and prints each ring as it closes. Standard input has the number of columns, the number
 * of rows and the threshold, and then the values, row after row.
 *
 *     cc -std=c99 -I include examples/c/rows.c target/staticlib/libcontour_c.a -o rows
 *     printf '3 3 1\n1 1 1\n1 0 1\n1 1 1\n' | ./rows
 */
#include "contour_easy.h"

#include <inttypes.h>
#include <stdio.h>

/* The values of the next row; 0 where the input ends before, or has something that is no number. */
static int read_row(double *values, size_t count) {
    for (size_t k = 0; k < count; k++) {
        if (scanf("%lf", &values[k]) != 1)
            return 0;
    }
    return 1;
}

/* A line for each ring that the last call has closed. */
static void print_rings(const contour_rows *rows, const char *by) {
    for (uint32_t k = 0; k < rows->tables.rings; k++) {
        contour_ring ring = contour_easy_row_ring(rows, k);
        printf("ring %" PRIu32 ", closed by %s: ", ring.number, by);
        for (uint32_t p = 0; p < ring.count; p++) {
            printf("(%d,%d)", ring.points[2 * (size_t)p], ring.points[2 * (size_t)p + 1]);
        }
        putchar('\n');
    }
}

/* Hands over all rows and then the end. Returns the number of the call that was refused, else CONTOUR_OK. */
static uint32_t draw(contour_rows *rows, double threshold, size_t dx, size_t dy) {
    static double values[CONTOUR_SIDE_LIMIT];
    uint32_t number = contour_easy_begin(rows, threshold, CONTOUR_AT_LEAST, dx, dy);
    for (size_t y = 0; number == CONTOUR_OK && y < dy; y++) {
        char by[32];
        if (!read_row(values, dx)) {
            fputs("a row is missing\n", stderr);
            exit(1);
        }
        number = contour_easy_row(rows, values, dx);
        snprintf(by, sizeof by, "row %zu", y);
        print_rings(rows, by);
    }
    if (number != CONTOUR_OK)
        return number;
    number = contour_easy_end(rows);
    print_rings(rows, "the end");
    return number;
}

int main(void) {
    contour_rows rows = contour_easy_rows();
    size_t dx, dy;
    double threshold;
    uint32_t number;
    if (scanf("%zu %zu %lf", &dx, &dy, &threshold) != 3) {
        fputs("the first line wants columns, rows and threshold\n", stderr);
        return 1;
    }
    number = draw(&rows, threshold, dx, dy);
    contour_easy_free_rows(&rows);
    if (number != CONTOUR_OK) {
        fprintf(stderr, "refusal %" PRIu32 ": %s\n", number, contour_strerror(number));
        return 1;
    }
    return 0;
}
