/*
 * Prints the rings of a 3 by 3 terrain that is above everywhere but in the centre. The reports size the
 * tables.
 *
 *     cc -std=c99 -I include examples/c/rings.c target/staticlib/libcontour_c.a -o rings
 */
#include "contour.h"

#include <inttypes.h>
#include <stdio.h>
#include <stdlib.h>

#define DX 3
#define DY 3
#define COUNT (DX * DY)

static const double values[COUNT] = {1, 1, 1, 1, 0, 1, 1, 1, 1};
static const double threshold = 1;
static const uint32_t rule = CONTOUR_AT_LEAST;

/* The tables of one terrain. */
struct tables {
    uint32_t *lines, *links, *directory;
    uint16_t *points;
    size_t lines_words, links_words, points_words, directory_words;
};

/* Room for so many words; never none, so that a null pointer means that there is no memory. */
static void *room(size_t words, size_t size) {
    void *table = calloc(words > 0 ? words : 1, size);
    if (table == NULL) {
        fputs("no memory\n", stderr);
        exit(1);
    }
    return table;
}

/* Leaves the program unless a call succeeded. */
static void demand(uint32_t number) {
    if (number != CONTOUR_OK) {
        printf("refusal %" PRIu32 ": %s\n", number, contour_strerror(number));
        exit(1);
    }
}

/* Sizes the work tables by the first report and the outputs by the second. */
static struct tables lend_tables(void) {
    struct tables t;
    uint32_t segments, rings, peak, points;
    demand(contour_first_report(values, COUNT, threshold, rule, DX, DY, &segments, &peak));
    t.lines_words = CONTOUR_OPEN_WORDS(peak, DX);
    t.links_words = CONTOUR_LINK_WORDS(segments);
    t.lines = room(t.lines_words, sizeof *t.lines);
    t.links = room(t.links_words, sizeof *t.links);
    demand(contour_second_report(values, COUNT, threshold, rule, DX, DY, t.lines, t.lines_words, t.links,
                                 t.links_words, &segments, &rings, &peak, &points));
    t.points_words = CONTOUR_POINT_WORDS(points);
    t.directory_words = CONTOUR_DIRECTORY_WORDS(rings);
    t.points = room(t.points_words, sizeof *t.points);
    t.directory = room(t.directory_words, sizeof *t.directory);
    return t;
}

/* A ring: its record, its points, and how many words these have. */
struct ring {
    const uint32_t *record;
    const uint16_t *points;
    size_t words;
};

static struct ring ring_of(const struct tables *t, uint32_t number) {
    struct ring ring;
    ring.record = t->directory + CONTOUR_DIRECTORY_WORDS(number);
    ring.points = t->points + 2 * (size_t)ring.record[CONTOUR_RECORD_FIRST];
    ring.words = 2 * (size_t)ring.record[CONTOUR_RECORD_COUNT];
    return ring;
}

static void print_ring(uint32_t number, struct ring ring) {
    printf("ring %" PRIu32 ": ", number);
    for (size_t k = 0; k < ring.words; k += 2) {
        printf("(%d,%d)", ring.points[k], ring.points[k + 1]);
    }
    printf(" area %" PRId64 "\n", contour_record_area(ring.record));
}

int main(void) {
    struct tables t = lend_tables();
    uint32_t rings, number, segments, peak;
    int32_t answer;
    demand(contour_rings(values, COUNT, threshold, rule, DX, DY, t.lines, t.lines_words, t.links, t.links_words,
                         t.points, t.points_words, t.directory, t.directory_words, &rings));
    for (uint32_t k = 0; k < rings; k++) {
        print_ring(k, ring_of(&t, k));
    }

    struct ring hole = ring_of(&t, 0), outer = ring_of(&t, 1);
    demand(contour_contains(outer.points, outer.words, hole.points, hole.words, &answer));
    printf("ring 1 against ring 0: %" PRId32 "\n", answer);

    number = contour_first_report(values, COUNT - 1, threshold, rule, DX, DY, &segments, &peak);
    printf("one value fewer: refusal %" PRIu32 "\n", number);

    free(t.lines);
    free(t.links);
    free(t.points);
    free(t.directory);
    return 0;
}
