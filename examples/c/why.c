/*
 * Says of each ring of three ring sets what became of it and why: of the 3 by 3 terrain that is above everywhere but
 * in the centre, of frames about one another, and of a hole that was taken from its polygon. Then it says what
 * smoothing does to the vertices of a line, about samples that are at least 1 and about samples that are more than 0.
 *
 *     cc -std=c99 -I include examples/c/why.c target/staticlib/libcontour_c.a -o why
 */
#include "contour_easy.h"

#include <inttypes.h>
#include <stdio.h>

/* A ring set as the calls take it. */
struct ring_set {
    const uint16_t *points;
    size_t points_words;
    const uint32_t *directory;
    size_t directory_words;
    uint32_t rings;
};

/* Leaves the program unless a call succeeded. */
static void demand(uint32_t number) {
    if (number != CONTOUR_OK) {
        fprintf(stderr, "refusal %" PRIu32 ": %s\n", number, contour_strerror(number));
        exit(1);
    }
}

/* A contour in the tables. */
static struct ring_set contour(contour_tables *tables, contour_terrain terrain, double threshold, uint32_t rule) {
    struct ring_set set;
    demand(contour_easy_contours(tables, terrain, threshold, rule));
    set.points = tables->points;
    set.points_words = tables->points_words;
    set.directory = tables->directory;
    set.directory_words = tables->directory_words;
    set.rings = tables->rings;
    return set;
}

/* What each polygon of a lower number answers for a ring, or all of them where it has no owner. */
static void print_answers(const struct ring_set *s, uint32_t ring, uint32_t owner) {
    for (uint32_t k = 0; k < s->rings && k < owner; k++) {
        uint32_t vertex;
        int32_t answer;
        if (s->directory[CONTOUR_DIRECTORY_WORDS(k) + CONTOUR_RECORD_CLASS] != CONTOUR_POLYGON)
            continue;
        demand(contour_polygon_answer(s->points, s->points_words, s->directory, s->directory_words, s->rings, k, ring,
                                      &answer, &vertex));
        printf("  polygon %" PRIu32 " answers %" PRId32 " by vertex %" PRIu32 "\n", k, answer, vertex);
    }
}

static void print_fate(const struct ring_set *s, uint32_t ring) {
    uint32_t ring_class, owner, vertex;
    demand(contour_ring_fate(s->points, s->points_words, s->directory, s->directory_words, s->rings, ring,
                             &ring_class, &owner, &vertex));
    printf("ring %" PRIu32 " is ", ring);
    if (ring_class == CONTOUR_POLYGON) {
        puts("a polygon");
        return;
    }
    if (owner == CONTOUR_NO_OWNER)
        puts("dropped");
    else if (vertex == CONTOUR_NO_VERTEX)
        printf("a hole of polygon %" PRIu32 ": every vertex answers 0\n", owner);
    else
        printf("a hole of polygon %" PRIu32 ": vertex %" PRIu32 " lies inside\n", owner, vertex);
    print_answers(s, ring, owner);
}

static void print_fates(const char *title, const struct ring_set *set) {
    puts(title);
    for (uint32_t k = 0; k < set->rings; k++) {
        print_fate(set, k);
    }
}

static void print_coordinate(const char *name, uint32_t kind, double fraction) {
    if (kind == CONTOUR_MOVED)
        printf(", %s moves by the fraction %g", name, fraction);
    else
        printf(", %s %s", name, kind == CONTOUR_STAYED ? "stays" : "has no number for its fraction");
}

/* What smoothing does to each vertex of ring 0 of a contour. */
static void print_smoothing(const char *title, contour_tables *tables, contour_terrain t, double threshold,
                            uint32_t rule) {
    struct ring_set s = contour(tables, t, threshold, rule);
    puts(title);
    for (uint32_t vertex = 0; vertex < s.directory[CONTOUR_RECORD_COUNT]; vertex++) {
        uint32_t x_kind, y_kind;
        double x = 0, y = 0;
        demand(contour_smoothed_vertex(t.values, t.count, threshold, rule, t.dx, t.dy, s.points, s.points_words,
                                       s.directory, s.directory_words, s.rings, 0, vertex, &x_kind, &x, &y_kind,
                                       &y));
        printf("vertex %" PRIu32, vertex);
        print_coordinate("x", x_kind, x);
        print_coordinate("y", y_kind, y);
        putchar('\n');
    }
}

/* A ring set that is made by hand: its one record has the area of its points. */
static void print_hole_alone(void) {
    const uint16_t points[] = {3, 4, 2, 3, 3, 2, 4, 3, 3, 4};
    const size_t words = sizeof points / sizeof *points;
    uint32_t record[CONTOUR_RECORD_WORDS];
    const struct ring_set hole = {points, words, record, CONTOUR_RECORD_WORDS, 1};
    int64_t area;
    demand(contour_area(points, words, &area));
    record[CONTOUR_RECORD_FIRST] = 0;
    record[CONTOUR_RECORD_COUNT] = (uint32_t)(words / 2);
    record[CONTOUR_RECORD_CLASS] = CONTOUR_HOLE;
    record[CONTOUR_RECORD_OWNER] = CONTOUR_NO_OWNER;
    contour_record_set_area(record, area);
    print_fates("a hole alone", &hole);
}

int main(void) {
    const double frame_values[] = {1, 1, 1, 1, 0, 1, 1, 1, 1}, row_values[] = {0, 4};
    const double nested_values[] = {1, 1, 1, 1, 1, 1, 0, 0, 0, 1, 1, 0, 1, 0, 1, 1, 0, 0, 0, 1, 1, 1, 1, 1, 1};
    const contour_terrain frame = {frame_values, 9, 3, 3}, nested = {nested_values, 25, 5, 5};
    const contour_terrain row = {row_values, 2, 2, 1};
    contour_tables tables = contour_easy_tables();
    struct ring_set set = contour(&tables, frame, 1, CONTOUR_AT_LEAST);
    print_fates("a frame", &set);
    set = contour(&tables, nested, 1, CONTOUR_AT_LEAST);
    print_fates("frames about one another", &set);
    print_hole_alone();
    print_smoothing("a row of 0 and 4, at least 1, smoothed", &tables, row, 1, CONTOUR_AT_LEAST);
    print_smoothing("a row of 0 and 4, more than 0, smoothed", &tables, row, 0, CONTOUR_MORE_THAN);
    contour_easy_free(&tables);
    return 0;
}
