/*
 * Prints the lines of a 4 by 3 terrain: as drawn, smoothed, and smoothed and placed. The reports of the rings
 * size the tables.
 *
 *     cc -std=c99 -I include examples/c/lines.c target/staticlib/libcontour_c.a -o lines
 */
#include "contour.h"

#include <inttypes.h>
#include <stdio.h>
#include <stdlib.h>

/* Dx columns and dy rows. */
struct terrain {
    const double *values;
    size_t dx, dy;
};

/* Origin and step of either coordinate. */
struct placement {
    double x_origin, y_origin, x_step, y_step;
};

/* Two samples whose values the threshold divides as 1 to 3. */
static const double two_values[] = {0, 4};
static const struct terrain two = {two_values, 2, 1};

/* A hill with a pit. */
static const double hill_values[] = {4, 4, 2, 0, 4, 0, 4, 2, 2, 4, 2, 0};
static const struct terrain hill = {hill_values, 4, 3};

static const double threshold = 1;
static const uint32_t rule = CONTOUR_AT_LEAST;

/* Room for so many words; never none, so that a null pointer means that there is no memory. */
static void *room(size_t words, size_t size) {
    void *table = calloc(words > 0 ? words : 1, size);
    if (table == NULL) {
        fputs("no memory\n", stderr);
        exit(1);
    }
    return table;
}

/* Leaves the program unless a call succeeded. */
static void demand(uint32_t number) {
    if (number != CONTOUR_OK) {
        printf("refusal %" PRIu32 ": %s\n", number, contour_strerror(number));
        exit(1);
    }
}

static void print_line(const double *line, size_t points) {
    fputs("line ", stdout);
    for (size_t k = 0; k < points; k++) {
        printf("(%g,%g)", line[2 * k], line[2 * k + 1]);
    }
    putchar('\n');
}

/* Draws into tables of its own, which it gives up, and prints a title and each line. */
static void draw(const char *title, struct terrain t, uint32_t smooth, struct placement at) {
    size_t count = t.dx * t.dy;
    uint32_t segments, rings, peak, points;
    demand(contour_first_report(t.values, count, threshold, rule, t.dx, t.dy, &segments, &peak));
    size_t lines_words = CONTOUR_OPEN_WORDS(peak, t.dx), links_words = CONTOUR_LINK_WORDS(segments);
    uint32_t *lines = room(lines_words, sizeof *lines), *links = room(links_words, sizeof *links);
    demand(contour_second_report(t.values, count, threshold, rule, t.dx, t.dy, lines, lines_words, links, links_words,
                                 &segments, &rings, &peak, &points));
    size_t points_words = CONTOUR_POINT_WORDS(points), directory_words = CONTOUR_DIRECTORY_WORDS(rings);
    double *drawn = room(points_words, sizeof *drawn);
    uint32_t *directory = room(directory_words, sizeof *directory);
    demand(contour_lines(t.values, count, threshold, rule, t.dx, t.dy, smooth, at.x_origin, at.y_origin, at.x_step,
                         at.y_step, lines, lines_words, links, links_words, drawn, points_words, directory,
                         directory_words, &rings));
    puts(title);
    for (uint32_t k = 0; k < rings; k++) {
        const uint32_t *record = directory + CONTOUR_DIRECTORY_WORDS(k);
        print_line(drawn + 2 * (size_t)record[CONTOUR_RECORD_FIRST], record[CONTOUR_RECORD_COUNT]);
    }
    free(lines);
    free(links);
    free(drawn);
    free(directory);
}

int main(void) {
    const struct placement unplaced = {0, 0, 1, 1}, placed = {10, 20, 0.5, 0.25};
    uint32_t number, rings, none[3];
    double nothing[1];
    draw("two samples, smoothed", two, 1, unplaced);
    draw("as drawn", hill, 0, unplaced);
    draw("smoothed", hill, 1, unplaced);
    draw("smoothed and placed", hill, 1, placed);
    number = contour_lines(hill.values, hill.dx * hill.dy - 1, threshold, rule, hill.dx, hill.dy, 1, 0, 0, 1, 1, none,
                           0, none + 1, 0, nothing, 0, none + 2, 0, &rings);
    printf("one value fewer: refusal %" PRIu32 "\n", number);
    return 0;
}
