/*
 * contour_easy.h against the exact calls in tables of their own, on random terrains with one set of tables for all,
 * as a whole and row by row; the areas of rings against contour_area, and those of lines against their rings; which
 * samples are above by each rule; what it says where it is refused or has no memory, and of rings and vertices;
 * pointers that are NULL with a count of 0; areas in two words; and the words of contour_strerror.
 */
#include "checks.h"

#include <float.h>
#include <math.h>

/* Memory that ends: so many more calls of malloc and realloc succeed. */
static long left_to_take = -1;

static int is_left(void) {
    if (left_to_take == 0) {
        return 0;
    }
    left_to_take -= left_to_take > 0;
    return 1;
}

static void *scarce(size_t bytes) {
    return is_left() ? malloc(bytes) : NULL;
}

static void *scarce_again(void *table, size_t bytes) {
    return is_left() ? realloc(table, bytes) : NULL;
}

#define malloc scarce
#define realloc scarce_again
#include "contour_easy.h"
#undef malloc
#undef realloc

#define SIDE 12
#define TERRAINS 2000

static const contour_placement nowhere = {0, 0, 1, 1}, somewhere = {3, -7, 0.5, -2};

/* Exact tables for the largest terrain that is drawn here. */
static uint32_t lines[4 * SIDE + SIDE + 2], links[4 * SIDE * SIDE + 4 * SIDE];
static uint32_t directory[CONTOUR_DIRECTORY_WORDS(SIDE * SIDE)];
static uint16_t points[8 * SIDE * SIDE];
static double vertices[8 * SIDE * SIDE];
static uint8_t text[1 << 16];

#define WORDS(table) (table), sizeof(table) / sizeof *(table)
#define WORK WORDS(lines), WORDS(links)

/* Whether the records in the easy tables are those in ours. */
static int same_records(const contour_tables *tables, uint32_t rings) {
    size_t bytes = sizeof *directory * CONTOUR_DIRECTORY_WORDS(rings);
    return tables->rings == rings && (rings == 0 || memcmp(tables->directory, directory, bytes) == 0);
}

/* Our record of this number, the words of its points, and these. */
static const uint32_t *record_of(uint32_t k) {
    return directory + CONTOUR_DIRECTORY_WORDS(k);
}

static size_t words_of(uint32_t k) {
    return CONTOUR_POINT_WORDS(record_of(k)[CONTOUR_RECORD_COUNT]);
}

static const uint16_t *points_of(uint32_t k) {
    return points + CONTOUR_POINT_WORDS(record_of(k)[CONTOUR_RECORD_FIRST]);
}

/* The area of the points of our ring of this number. */
static int64_t area_of(uint32_t k) {
    int64_t area = INT64_MIN;
    CHECK(contour_area(points_of(k), words_of(k), &area) == CONTOUR_OK);
    return area;
}

/* Whether a ring has the points of ours, as many, and their area. */
static int same_points(contour_ring ring, uint32_t k) {
    return ring.count == record_of(k)[CONTOUR_RECORD_COUNT] && ring.area == area_of(k) &&
           memcmp(ring.points, points_of(k), sizeof *points * words_of(k)) == 0;
}

/* Whether each ring of the easy tables has the points and the record that ours has. */
static int same_rings(const contour_tables *tables, uint32_t rings) {
    int same = same_records(tables, rings);
    for (uint32_t k = 0; same && k < rings; k++) {
        contour_ring ring = contour_easy_ring(tables, k);
        same = ring.number == k && ring.ring_class == record_of(k)[CONTOUR_RECORD_CLASS] &&
               ring.owner == record_of(k)[CONTOUR_RECORD_OWNER] && same_points(ring, k);
    }
    return same;
}

/* Whether each line of the easy tables has the vertices and the record that ours has, and the area of the ring that it
 * was made from. */
static int same_lines(const contour_tables *tables, uint32_t rings, const int64_t *areas) {
    int same = same_records(tables, rings);
    for (uint32_t k = 0; same && k < rings; k++) {
        const double *ours = vertices + CONTOUR_POINT_WORDS(record_of(k)[CONTOUR_RECORD_FIRST]);
        contour_line line = contour_easy_line(tables, k);
        same = line.number == k && line.count == record_of(k)[CONTOUR_RECORD_COUNT] && line.area == areas[k] &&
               memcmp(line.vertices, ours, sizeof *vertices * words_of(k)) == 0;
    }
    return same;
}

static int same_text(contour_tables *tables, uint32_t rings) {
    uint64_t length;
    return contour_geojson(WORDS(points), WORDS(directory), rings, WORDS(text), &length) == CONTOUR_OK &&
           contour_easy_geojson(tables) == CONTOUR_OK && tables->text_length == length &&
           memcmp(tables->text, text, length) == 0 && tables->text[length] == 0;
}

/* Whether the easy call says of a ring what the exact one says. */
static int same_fate(const contour_tables *tables, uint32_t k) {
    contour_fate easy = {7, 7, 7}, exact = easy;
    uint32_t number = contour_ring_fate(WORDS(points), WORDS(directory), tables->rings, k, &exact.ring_class,
                                        &exact.owner, &exact.vertex);
    return contour_easy_fate(tables, k, &easy) == number && memcmp(&easy, &exact, sizeof easy) == 0;
}

static int same_answer(const contour_tables *tables, uint32_t polygon, uint32_t k) {
    contour_decision easy = {7, 7}, exact = easy;
    uint32_t number = contour_polygon_answer(WORDS(points), WORDS(directory), tables->rings, polygon, k,
                                             &exact.answer, &exact.vertex);
    return contour_easy_answer(tables, polygon, k, &easy) == number && memcmp(&easy, &exact, sizeof easy) == 0;
}

static int same_smoothing(const contour_tables *tables, contour_terrain t, double threshold, uint32_t rule,
                          uint32_t k, uint32_t vertex) {
    contour_coordinate easy_x = {7, 7}, easy_y = {7, 7}, x = {7, 7}, y = {7, 7};
    uint32_t number =
        contour_smoothed_vertex(t.values, t.count, threshold, rule, t.dx, t.dy, WORDS(points), WORDS(directory),
                                tables->rings, k, vertex, &x.kind, &x.fraction, &y.kind, &y.fraction);
    return contour_easy_smoothed_vertex(tables, t, threshold, rule, k, vertex, &easy_x, &easy_y) == number &&
           easy_x.kind == x.kind && easy_x.fraction == x.fraction && easy_y.kind == y.kind &&
           easy_y.fraction == y.fraction;
}

/* The same of each ring, of each for each, of each vertex, and of the first numbers that are not there. */
static int same_whys(const contour_tables *tables, contour_terrain terrain, double threshold, uint32_t rule) {
    int same = 1;
    for (uint32_t k = 0; k <= tables->rings; k++) {
        uint32_t count = k < tables->rings ? record_of(k)[CONTOUR_RECORD_COUNT] : 0;
        same = same && same_fate(tables, k);
        for (uint32_t polygon = 0; same && polygon <= tables->rings; polygon++) {
            same = same_answer(tables, polygon, k);
        }
        for (uint32_t vertex = 0; same && vertex <= count; vertex++) {
            same = same_smoothing(tables, terrain, threshold, rule, k, vertex);
        }
    }
    return same;
}

static void try_terrains(void) {
    contour_tables tables = contour_easy_tables();
    double values[SIDE * SIDE];
    int64_t areas[SIDE * SIDE];
    for (int n = 0; n < TERRAINS; n++) {
        size_t dx = 1 + below(SIDE), dy = 1 + below(SIDE), count = dx * dy;
        double pair[2] = {below(6), below(6)}, t = pair[0];
        contour_terrain terrain = {values, count, dx, dy};
        contour_placement at = n % 2 ? nowhere : somewhere;
        uint32_t r = 0, rule = below(2);
        fill(values, count);
        CHECK(contour_rings(values, count, t, rule, dx, dy, WORK, WORDS(points), WORDS(directory), &r) == CONTOUR_OK);
        CHECK(contour_easy_rings(&tables, terrain, t, rule) == CONTOUR_OK && same_rings(&tables, r));
        for (uint32_t k = 0; k < r; k++) {
            areas[k] = area_of(k);
        }
        CHECK(contour_easy_geojson(&tables) == (r == 0 ? CONTOUR_OK : CONTOUR_BAD_RING_SET));
        CHECK(contour_contours(values, count, t, rule, dx, dy, WORK, WORDS(points), WORDS(directory), &r) ==
              CONTOUR_OK);
        CHECK(contour_easy_contours(&tables, terrain, t, rule) == CONTOUR_OK && same_rings(&tables, r));
        CHECK(same_text(&tables, r) && same_whys(&tables, terrain, t, rule));
        CHECK(contour_isobands(values, count, pair, 2, rule, 0, dx, dy, WORK, WORDS(points), WORDS(directory), &r) ==
              CONTOUR_OK);
        CHECK(contour_easy_isobands(&tables, terrain, pair, 2, rule, 0) == CONTOUR_OK && same_rings(&tables, r));
        CHECK(same_text(&tables, r));
        CHECK(contour_lines(values, count, t, rule, dx, dy, n % 3 != 0, at.x_origin, at.y_origin, at.x_step,
                            at.y_step, WORK, WORDS(vertices), WORDS(directory), &r) == CONTOUR_OK);
        CHECK(contour_easy_lines(&tables, terrain, t, rule, n % 3 != 0, at) == CONTOUR_OK &&
              same_lines(&tables, r, areas));
    }
    contour_easy_free(&tables);
    CHECK(tables.rings == 0 && tables.points == NULL && tables.points_words == 0);
}

/* How many rings each call draws of one sample: the same number, or -1. Nothing is above NaN, so a band with it has
 * the rings of the other threshold alone. */
static int rings_of_one(double value, double threshold, uint32_t rule) {
    const contour_terrain terrain = {&value, 1, 1, 1};
    const double lower[] = {threshold, NAN}, upper[] = {NAN, threshold};
    contour_tables tables = contour_easy_tables();
    contour_rows rows = contour_easy_rows();
    uint32_t drawn, same;
    same = contour_easy_rings(&tables, terrain, threshold, rule) == CONTOUR_OK;
    drawn = tables.rings;
    same &= contour_easy_contours(&tables, terrain, threshold, rule) == CONTOUR_OK && tables.rings == drawn;
    same &= contour_easy_isobands(&tables, terrain, lower, 2, rule, 0) == CONTOUR_OK && tables.rings == drawn;
    same &= contour_easy_isobands(&tables, terrain, upper, 2, rule, 0) == CONTOUR_OK && tables.rings == drawn;
    same &= contour_easy_lines(&tables, terrain, threshold, rule, 1, nowhere) == CONTOUR_OK && tables.rings == drawn;
    same &= contour_easy_begin(&rows, threshold, rule, 1, 1) == CONTOUR_OK;
    same &= contour_easy_row(&rows, &value, 1) == CONTOUR_OK && rows.tables.rings == 0;
    same &= contour_easy_end(&rows) == CONTOUR_OK && rows.tables.rings == drawn;
    contour_easy_free_rows(&rows);
    contour_easy_free(&tables);
    return same ? (int)drawn : -1;
}

/* A sample against a threshold, and whether it is above: when it has to be at least the threshold, and when it has to
 * be more, for which any number but 0 stands. */
static void try_rules(void) {
    const struct {
        double value, threshold;
        int at_least, more_than;
    } samples[] = {
        {5, 5, 1, 0},
        {5, 4, 1, 1},
        {5, 6, 0, 0},
        {0.0, -0.0, 1, 0},
        {-0.0, 0.0, 1, 0},
        {DBL_MIN, 0, 1, 1},
        {-DBL_MIN, 0, 0, 0},
        {INFINITY, INFINITY, 1, 0},
        {-INFINITY, -INFINITY, 1, 0},
        {INFINITY, DBL_MAX, 1, 1},
        {DBL_MAX, INFINITY, 0, 0},
        {NAN, 0, 0, 0},
        {NAN, -INFINITY, 0, 0},
        {0, NAN, 0, 0},
        {NAN, NAN, 0, 0},
    };
    const uint32_t more[] = {CONTOUR_MORE_THAN, 2, 1u << 31, UINT32_MAX};
    for (size_t n = 0; n < sizeof samples / sizeof *samples; n++) {
        double value = samples[n].value, threshold = samples[n].threshold;
        CHECK(rings_of_one(value, threshold, CONTOUR_AT_LEAST) == samples[n].at_least);
        for (size_t k = 0; k < sizeof more / sizeof *more; k++) {
            CHECK(rings_of_one(value, threshold, more[k]) == samples[n].more_than);
        }
    }
}

/* Samples that stand alone: of four segments each, so that no table has a word to spare. */
static void try_full_tables(void) {
    const double alone[] = {1, 0, 1, 0, 0, 0, 1, 0, 1}, pair[] = {1, 1};
    for (size_t side = 1; side <= 3; side += 2) {
        const contour_terrain terrain = {alone, side * side, side, side};
        uint32_t rings = side == 1 ? 1 : 4;
        contour_tables tables = contour_easy_tables();
        CHECK(contour_easy_rings(&tables, terrain, 1, CONTOUR_AT_LEAST) == CONTOUR_OK && tables.rings == rings);
        CHECK(tables.directory_words == CONTOUR_DIRECTORY_WORDS(rings) && tables.points_words == 10 * rings);
        contour_easy_free(&tables);
        CHECK(contour_easy_lines(&tables, terrain, 0, CONTOUR_MORE_THAN, 0, nowhere) == CONTOUR_OK &&
              tables.rings == rings);
        contour_easy_free(&tables);
        CHECK(contour_easy_isobands(&tables, terrain, pair, 2, CONTOUR_AT_LEAST, 0) == CONTOUR_OK &&
              tables.rings == 2 * rings);
        CHECK(tables.directory_words == CONTOUR_DIRECTORY_WORDS(2 * rings) && tables.points_words == 20 * rings);
        contour_easy_free(&tables);
    }
}

/* Whether the rings that a row or the end has closed are ours from this number on. */
static int same_closed(const contour_rows *rows, uint32_t first) {
    int same = 1;
    for (uint32_t k = 0; same && k < rows->tables.rings; k++) {
        contour_ring ring = contour_easy_row_ring(rows, k);
        same = ring.number == first + k && ring.ring_class == CONTOUR_LINE && ring.owner == CONTOUR_NO_OWNER &&
               same_points(ring, first + k);
    }
    return same;
}

/* Terrains row by row, one after the other in the same memory. What is refused on the way changes nothing. */
static void try_rows(void) {
    contour_rows rows = contour_easy_rows();
    double values[SIDE * SIDE] = {0};
    CHECK(contour_easy_row(&rows, values, 1) == CONTOUR_BAD_ROW && contour_easy_end(&rows) == CONTOUR_BAD_TURN);
    CHECK(contour_easy_row(&rows, NULL, 0) == CONTOUR_BAD_TURN);
    for (int n = 0; n < TERRAINS; n++) {
        size_t dx = 1 + below(SIDE), dy = 1 + below(SIDE), count = dx * dy;
        double t = below(6);
        uint32_t r = 0, closed = 0, rule = below(2);
        fill(values, count);
        CHECK(contour_rings(values, count, t, rule, dx, dy, WORK, WORDS(points), WORDS(directory), &r) == CONTOUR_OK);
        CHECK(contour_easy_begin(&rows, t, rule, dx, dy) == CONTOUR_OK && rows.tables.rings == 0);
        for (size_t y = 0; y < dy; y++) {
            CHECK(contour_easy_begin(&rows, t, 1 - rule, dx, CONTOUR_SIDE_LIMIT + 1) == CONTOUR_BAD_SIDE);
            CHECK(contour_easy_row(&rows, values, dx + 1) == CONTOUR_BAD_ROW && rows.tables.rings == 0);
            CHECK(contour_easy_end(&rows) == CONTOUR_BAD_TURN && rows.tables.rings == 0);
            CHECK(contour_easy_row(&rows, values + y * dx, dx) == CONTOUR_OK && same_closed(&rows, closed));
            closed += rows.tables.rings;
        }
        CHECK(contour_easy_row(&rows, values, dx) == CONTOUR_BAD_TURN);
        CHECK(contour_easy_end(&rows) == CONTOUR_OK && same_closed(&rows, closed));
        CHECK(closed + rows.tables.rings == r && contour_easy_end(&rows) == CONTOUR_BAD_TURN);
    }
    contour_easy_free_rows(&rows);
    CHECK(rows.tables.lines == NULL && rows.tables.links == NULL && rows.first == 0);
}

/* With memory for fewer tables than the rows take, one of them is refused; and with memory again the same row is
 * taken, and the rings are those that there are. */
static void try_rows_in_scarce_memory(void) {
    const double values[] = {1, 1, 1, 1, 0, 1, 1, 1, 1};
    for (long taken = 0; taken <= 8; taken++) {
        contour_rows rows = contour_easy_rows();
        uint32_t number, refused = 0;
        left_to_take = taken;
        number = contour_easy_begin(&rows, 1, CONTOUR_AT_LEAST, 3, 3);
        if (taken == 0) {
            CHECK(number == CONTOUR_NO_MEMORY && contour_easy_row(&rows, values, 3) == CONTOUR_BAD_ROW);
            left_to_take = -1;
            number = contour_easy_begin(&rows, 1, CONTOUR_AT_LEAST, 3, 3);
        }
        CHECK(number == CONTOUR_OK);
        for (size_t y = 0; y < 4; y++) {
            do {
                number = y < 3 ? contour_easy_row(&rows, values + 3 * y, 3) : contour_easy_end(&rows);
                refused += number == CONTOUR_NO_MEMORY;
                left_to_take = number == CONTOUR_NO_MEMORY ? -1 : left_to_take;
            } while (number == CONTOUR_NO_MEMORY);
            CHECK(number == CONTOUR_OK && rows.tables.rings == (y < 2 ? 0u : 1u));
        }
        CHECK(contour_easy_row_ring(&rows, 0).number == 1 && contour_easy_row_ring(&rows, 0).count == 13);
        CHECK(refused == (0 < taken && taken < 8 ? 1u : 0u));
        left_to_take = -1;
        contour_easy_free_rows(&rows);
    }
}

static void try_refusals(void) {
    const double values[] = {2, 2, 2, 2, 1, 2, 2, 2, 0}, pair[] = {1, 2};
    const contour_terrain whole = {values, 9, 3, 3}, short_of_one = {values, 8, 3, 3}, flat = {values, 9, 9, 0};
    contour_tables tables = contour_easy_tables();
    const uint32_t rule = CONTOUR_AT_LEAST;
    contour_fate fate = {7, 7, 7};
    contour_decision decision;
    contour_coordinate x, y;
    CHECK(contour_easy_fate(&tables, 0, &fate) == CONTOUR_NOT_THERE);
    CHECK(contour_easy_rings(&tables, whole, 1, rule) == CONTOUR_OK && tables.rings == 1);
    CHECK(contour_easy_fate(&tables, 0, &fate) == CONTOUR_BAD_RING_SET && fate.owner == 7);
    CHECK(contour_easy_answer(&tables, 0, 0, &decision) == CONTOUR_BAD_RING_SET);
    CHECK(contour_easy_smoothed_vertex(&tables, whole, 1, rule, 0, 0, &x, &y) == CONTOUR_BAD_RING_SET);
    CHECK(contour_easy_smoothed_vertex(&tables, short_of_one, 1, rule, 0, 0, &x, &y) == CONTOUR_BAD_VALUE_COUNT);
    CHECK(contour_easy_contours(&tables, whole, 1, rule) == CONTOUR_OK && tables.rings == 1);
    CHECK(contour_easy_contours(&tables, short_of_one, 1, rule) == CONTOUR_BAD_VALUE_COUNT && tables.rings == 0);
    CHECK(contour_easy_rings(&tables, flat, 1, rule) == CONTOUR_BAD_SIDE && tables.rings == 0);
    CHECK(contour_easy_lines(&tables, flat, 1, rule, 1, nowhere) == CONTOUR_BAD_SIDE);
    CHECK(contour_easy_isobands(&tables, whole, pair, 1, rule, 0) == CONTOUR_FEW_THRESHOLDS);
    CHECK(contour_easy_isobands(&tables, whole, pair, 2, rule, 1) == CONTOUR_NO_PAIR && tables.rings == 0);
    /* What contour.h says of bands: this one has rings, and no polygon. */
    CHECK(contour_easy_isobands(&tables, whole, pair, 2, rule, 0) == CONTOUR_OK && tables.rings > 0);
    for (uint32_t k = 0; k < tables.rings; k++) {
        CHECK(contour_easy_ring(&tables, k).ring_class == CONTOUR_HOLE);
    }
    contour_easy_free(&tables);
}

/* With memory for fewer tables than a figure and its text take, there is none for the figure; and the next call,
 * with memory again, draws it. */
static void try_scarce_memory(void) {
    const double values[] = {1, 1, 1, 1, 0, 1, 1, 1, 1};
    const contour_terrain terrain = {values, 9, 3, 3};
    for (long taken = 0; taken <= 5; taken++) {
        contour_tables tables = contour_easy_tables();
        uint32_t drawn, written = CONTOUR_NO_MEMORY;
        left_to_take = taken;
        drawn = contour_easy_contours(&tables, terrain, 1, CONTOUR_AT_LEAST);
        if (drawn == CONTOUR_OK) {
            written = contour_easy_geojson(&tables);
        }
        left_to_take = -1;
        CHECK(drawn == (taken < 4 ? CONTOUR_NO_MEMORY : CONTOUR_OK) && tables.rings == (taken < 4 ? 0 : 2));
        CHECK(written == (taken < 5 ? CONTOUR_NO_MEMORY : CONTOUR_OK));
        CHECK(contour_easy_contours(&tables, terrain, 1, CONTOUR_AT_LEAST) == CONTOUR_OK && tables.rings == 2);
        CHECK(contour_easy_geojson(&tables) == CONTOUR_OK && tables.text_length == strlen(tables.text));
        contour_easy_free(&tables);
    }
}

/* NULL where the count is 0: refused as any short table is, and taken where nothing is needed. */
static void try_null(void) {
    const double one[] = {1}, pair[] = {2, 3};
    const uint32_t rule = CONTOUR_AT_LEAST;
    double x, y;
    uint32_t a, b, c, d, open[3] = {0}, state[CONTOUR_ROWS_WORDS];
    uint64_t length;
    int64_t area;
    int32_t answer = 7;
    uint8_t room[64];
    uint16_t ring[] = {2, 1, 1, 0, 0, 1, 1, 2, 2, 1};
    CHECK(contour_first_report(NULL, 0, 1, rule, 1, 1, &a, &b) == CONTOUR_BAD_VALUE_COUNT);
    CHECK(contour_first_report(NULL, 0, 1, rule, 0, 1, &a, &b) == CONTOUR_BAD_SIDE);
    CHECK(contour_band_first_report(one, 1, NULL, 0, rule, 0, 1, 1, &a, &b) == CONTOUR_FEW_THRESHOLDS);
    CHECK(contour_second_report(one, 1, 1, rule, 1, 1, NULL, 0, NULL, 0, &a, &b, &c, &d) == CONTOUR_OPEN_SHORT);
    CHECK(contour_second_report(one, 1, 2, rule, 1, 1, open, 3, NULL, 0, &a, &b, &c, &d) == CONTOUR_OK && a == 0);
    CHECK(contour_band_second_report(one, 1, pair, 2, rule, 0, 1, 1, open, 3, NULL, 0, &a, &b, &c, &d) ==
          CONTOUR_OK);
    CHECK(contour_rings(one, 1, 1, rule, 1, 1, NULL, 0, NULL, 0, NULL, 0, NULL, 0, &a) == CONTOUR_OPEN_SHORT);
    CHECK(contour_rings(one, 1, 2, rule, 1, 1, open, 3, NULL, 0, NULL, 0, NULL, 0, &a) == CONTOUR_OK && a == 0);
    CHECK(contour_contours(one, 1, 2, rule, 1, 1, open, 3, NULL, 0, NULL, 0, NULL, 0, &a) == CONTOUR_OK && a == 0);
    CHECK(contour_lines(one, 1, 2, rule, 1, 1, 1, 0, 0, 1, 1, open, 3, NULL, 0, NULL, 0, NULL, 0, &a) == CONTOUR_OK);
    CHECK(contour_isobands(one, 1, pair, 2, rule, 0, 1, 1, open, 3, NULL, 0, NULL, 0, NULL, 0, &a) == CONTOUR_OK);
    CHECK(contour_rows_begin(2, rule, 1, 1, state) == CONTOUR_OK);
    CHECK(contour_rows_row(state, NULL, 0, NULL, 0, NULL, 0, NULL, 0, NULL, 0, &a) == CONTOUR_BAD_ROW);
    CHECK(contour_rows_row(state, one, 1, NULL, 0, NULL, 0, NULL, 0, NULL, 0, &a) == CONTOUR_OPEN_SHORT);
    CHECK(contour_rows_row(state, one, 1, open, 3, NULL, 0, NULL, 0, NULL, 0, &a) == CONTOUR_OK && a == 0);
    CHECK(contour_rows_end(state, open, 3, NULL, 0, NULL, 0, NULL, 0, &a) == CONTOUR_OK && a == 0);
    CHECK(contour_area(NULL, 0, &area) == CONTOUR_BAD_RING);
    CHECK(contour_contains(NULL, 0, NULL, 0, &answer) == CONTOUR_BAD_RING);
    CHECK(contour_contains(ring, 10, NULL, 0, &answer) == CONTOUR_OK && answer == CONTOUR_BOUNDARY);
    CHECK(contour_check(NULL, 0, NULL, 0, 0) == CONTOUR_OK);
    CHECK(contour_check(NULL, 0, NULL, 0, 1) == CONTOUR_BAD_RING_SET);
    CHECK(contour_ring_fate(NULL, 0, NULL, 0, 0, 0, &a, &b, &c) == CONTOUR_NOT_THERE);
    CHECK(contour_ring_fate(NULL, 0, NULL, 0, 1, 0, &a, &b, &c) == CONTOUR_BAD_RING_SET);
    CHECK(contour_polygon_answer(NULL, 0, NULL, 0, 0, 0, 0, &answer, &a) == CONTOUR_NOT_THERE);
    CHECK(contour_smoothed_vertex(NULL, 0, 1, rule, 1, 1, NULL, 0, NULL, 0, 0, 0, 0, &a, &x, &b, &y) ==
          CONTOUR_BAD_VALUE_COUNT);
    CHECK(contour_smoothed_vertex(one, 1, 1, rule, 1, 1, NULL, 0, NULL, 0, 0, 0, 0, &a, &x, &b, &y) ==
          CONTOUR_NOT_THERE);
    CHECK(contour_geojson_length(NULL, 0, NULL, 0, 0, &length) == CONTOUR_OK && length == 40);
    CHECK(contour_geojson(NULL, 0, NULL, 0, 0, NULL, 0, &length) == CONTOUR_TEXT_SHORT);
    CHECK(contour_geojson(NULL, 0, NULL, 0, 0, room, sizeof room, &length) == CONTOUR_OK);
}

/* An area in a record is in two's complement, its low word first. A ring set is faulty with another area than that of
 * its ring. */
static void try_areas(void) {
    const struct {
        int64_t area;
        uint32_t low, high;
    } areas[] = {
        {0, 0, 0},
        {68, 68, 0},
        {-4, UINT32_MAX - 3, UINT32_MAX},
        {INT64_C(1) << 32, 0, 1},
        {-(INT64_C(1) << 32), 0, UINT32_MAX},
        {INT64_C(1) << 31, UINT32_C(1) << 31, 0},
        {(INT64_C(1) << 32) + 4, 4, 1},
        {INT64_C(4) << 32, 0, 4},
        {INT64_MAX, UINT32_MAX, UINT32_MAX >> 1},
        {INT64_MIN, 0, UINT32_C(1) << 31},
    };
    const uint16_t ring[] = {2, 1, 1, 0, 0, 1, 1, 2, 2, 1};
    uint32_t record[CONTOUR_RECORD_WORDS];
    record[CONTOUR_RECORD_FIRST] = 0;
    record[CONTOUR_RECORD_COUNT] = 5;
    record[CONTOUR_RECORD_CLASS] = CONTOUR_POLYGON;
    record[CONTOUR_RECORD_OWNER] = 0;
    for (size_t n = 0; n < sizeof areas / sizeof *areas; n++) {
        contour_record_set_area(record, areas[n].area);
        CHECK(record[CONTOUR_RECORD_AREA_LOW] == areas[n].low && record[CONTOUR_RECORD_AREA_HIGH] == areas[n].high);
        CHECK(contour_record_area(record) == areas[n].area);
        CHECK(contour_check(WORDS(ring), WORDS(record), 1) == CONTOUR_BAD_RING_SET);
    }
    /* Document 01's row 2. */
    contour_record_set_area(record, 4);
    CHECK(contour_check(WORDS(ring), WORDS(record), 1) == CONTOUR_OK);
    CHECK(contour_check(WORDS(ring), record, CONTOUR_DIRECTORY_WORDS(1) - 1, 1) == CONTOUR_BAD_RING_SET);
}

/* Each number has words of its own. */
static void try_words(void) {
    const uint32_t numbers[] = {0, 1, 2, 3, 4, 5, 6, 7, 8, 9, 10, 11, 13, 14, 15, CONTOUR_NO_MEMORY, 1000};
    const size_t count = sizeof numbers / sizeof *numbers;
    char version[32];
    for (size_t k = 0; k < count; k++) {
        CHECK(contour_strerror(numbers[k]) != NULL && strlen(contour_strerror(numbers[k])) > 8);
        for (size_t n = 0; n < k; n++) {
            CHECK(strcmp(contour_strerror(numbers[k]), contour_strerror(numbers[n])) != 0);
        }
    }
    sprintf(version, "%d.%d.%d", CONTOUR_VERSION_MAJOR, CONTOUR_VERSION_MINOR, CONTOUR_VERSION_PATCH);
    CHECK(strcmp(version, CONTOUR_VERSION) == 0);
}

int main(void) {
    try_terrains();
    try_rules();
    try_full_tables();
    try_rows();
    try_rows_in_scarce_memory();
    try_refusals();
    try_scarce_memory();
    try_null();
    try_areas();
    try_words();
    return finish("easy");
}
