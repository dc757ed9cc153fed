/*
 * Prints the contour and the bands of a 7 by 3 terrain as polygons and holes. The reports size the tables.
 *
 *     cc -std=c99 -I include examples/c/regions.c target/staticlib/libcontour_c.a -o regions
 */
#include "contour.h"

#include <inttypes.h>
#include <stdio.h>
#include <stdlib.h>

#define DX 7
#define DY 3
#define COUNT (DX * DY)
#define LEVELS 3

/* A plate with a hole and a peak, and a small hill beside it. */
static const double values[COUNT] = {1, 1, 1, 1, 1, 0, 2, 1, 0, 1, 2, 1, 0, 1, 1, 1, 1, 1, 1, 0, 0};
static const double levels[LEVELS] = {1, 2, 2};
static const uint32_t rule = CONTOUR_AT_LEAST;

/* The tables of one call. */
struct tables {
    uint32_t *lines, *links, *directory;
    uint16_t *points;
    size_t lines_words, links_words, points_words, directory_words;
};

/* Room for so many words; never none, so that a null pointer means that there is no memory. */
static void *room(size_t words, size_t size) {
    void *table = calloc(words > 0 ? words : 1, size);
    if (table == NULL) {
        fputs("no memory\n", stderr);
        exit(1);
    }
    return table;
}

/* Leaves the program unless a call succeeded. */
static void demand(uint32_t number) {
    if (number != CONTOUR_OK) {
        printf("refusal %" PRIu32 ": %s\n", number, contour_strerror(number));
        exit(1);
    }
}

/* The work tables, by what a first report gave. */
static struct tables work_tables(uint32_t segments, uint32_t peak) {
    struct tables t;
    t.lines_words = CONTOUR_OPEN_WORDS(peak, DX);
    t.links_words = CONTOUR_LINK_WORDS(segments);
    t.lines = room(t.lines_words, sizeof *t.lines);
    t.links = room(t.links_words, sizeof *t.links);
    return t;
}

/* The outputs, by what a second report gave. */
static void add_outputs(struct tables *t, uint32_t rings, uint32_t points) {
    t->points_words = CONTOUR_POINT_WORDS(points);
    t->directory_words = CONTOUR_DIRECTORY_WORDS(rings);
    t->points = room(t->points_words, sizeof *t->points);
    t->directory = room(t->directory_words, sizeof *t->directory);
}

static const uint32_t *record_of(const struct tables *t, uint32_t number) {
    return t->directory + CONTOUR_DIRECTORY_WORDS(number);
}

static void print_ring(const char *what, const struct tables *t, uint32_t number) {
    const uint32_t *record = record_of(t, number);
    const uint16_t *ring = t->points + 2 * record[CONTOUR_RECORD_FIRST];
    fputs(what, stdout);
    for (uint32_t k = 0; k < record[CONTOUR_RECORD_COUNT]; k++) {
        printf("(%d,%d)", ring[2 * k], ring[2 * k + 1]);
    }
    putchar('\n');
}

/* Each polygon with the holes that it owns, then the dropped holes. Gives the tables up. */
static void print_regions(struct tables *t, uint32_t rings) {
    for (uint32_t polygon = 0; polygon < rings; polygon++) {
        if (record_of(t, polygon)[CONTOUR_RECORD_CLASS] != CONTOUR_POLYGON) {
            continue;
        }
        print_ring("polygon ", t, polygon);
        for (uint32_t hole = 0; hole < rings; hole++) {
            if (hole != polygon && record_of(t, hole)[CONTOUR_RECORD_OWNER] == polygon) {
                print_ring("  hole ", t, hole);
            }
        }
    }
    for (uint32_t hole = 0; hole < rings; hole++) {
        if (record_of(t, hole)[CONTOUR_RECORD_OWNER] == CONTOUR_NO_OWNER) {
            print_ring("dropped ", t, hole);
        }
    }
    free(t->lines);
    free(t->links);
    free(t->points);
    free(t->directory);
}

static void contour(double level) {
    uint32_t segments, rings, peak, points;
    demand(contour_first_report(values, COUNT, level, rule, DX, DY, &segments, &peak));
    struct tables t = work_tables(segments, peak);
    demand(contour_second_report(values, COUNT, level, rule, DX, DY, t.lines, t.lines_words, t.links, t.links_words,
                                 &segments, &rings, &peak, &points));
    add_outputs(&t, rings, points);
    demand(contour_contours(values, COUNT, level, rule, DX, DY, t.lines, t.lines_words, t.links, t.links_words,
                            t.points, t.points_words, t.directory, t.directory_words, &rings));
    printf("contour at %g\n", level);
    print_regions(&t, rings);
}

static void band(size_t k) {
    uint32_t segments, rings, peak, points;
    demand(contour_band_first_report(values, COUNT, levels, LEVELS, rule, k, DX, DY, &segments, &peak));
    struct tables t = work_tables(segments, peak);
    demand(contour_band_second_report(values, COUNT, levels, LEVELS, rule, k, DX, DY, t.lines, t.lines_words, t.links,
                                      t.links_words, &segments, &rings, &peak, &points));
    add_outputs(&t, rings, points);
    demand(contour_isobands(values, COUNT, levels, LEVELS, rule, k, DX, DY, t.lines, t.lines_words, t.links,
                            t.links_words, t.points, t.points_words, t.directory, t.directory_words, &rings));
    printf("band from %g to %g\n", levels[k], levels[k + 1]);
    print_regions(&t, rings);
}

int main(void) {
    uint32_t number, segments, peak;
    contour(1);
    band(0);
    band(1);
    number = contour_band_first_report(values, COUNT, levels, LEVELS, rule, LEVELS - 1, DX, DY, &segments, &peak);
    printf("band from the last threshold: refusal %" PRIu32 "\n", number);
    return 0;
}
