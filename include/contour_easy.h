/*
 * The calls of contour.h in their easy form: a terrain is one value, the tables belong to a struct and grow as a
 * call needs them, and a figure is one call. Plain C99, and C++ as well; there is nothing more to link.
 *
 *     const double values[] = {1, 1, 1, 1, 0, 1, 1, 1, 1};
 *     const contour_terrain terrain = {values, 9, 3, 3};
 *     contour_tables tables = contour_easy_tables();
 *     uint32_t number = contour_easy_contours(&tables, terrain, 1, CONTOUR_AT_LEAST);
 *     if (number != CONTOUR_OK)
 *         fprintf(stderr, "%s\n", contour_strerror(number));
 *     for (uint32_t k = 0; k < tables.rings; k++) {
 *         contour_ring ring = contour_easy_ring(&tables, k);
 *         ... ring.count points x, y, ring.ring_class, ring.owner, ring.area ...
 *     }
 *     contour_easy_free(&tables);
 *
 * A drawing call returns CONTOUR_OK, a refusal that contour.h lists for it (5, 6, 7, 8 and 10 never, since every
 * table is long enough), or CONTOUR_NO_MEMORY. A figure stays in the tables until the next drawing call; where
 * that is refused the tables hold none. The tables serve one thread at a time.
 *
 * They are sized by the first report alone, since R is at most a fourth of the segments: so a terrain is stitched
 * once. Words that are not needed are never written.
 *
 * The rule behind a threshold, or behind a list of them, is that of contour.h: a sample is above when its value is at
 * least the threshold under CONTOUR_AT_LEAST, and when it is more under CONTOUR_MORE_THAN.
 *
 * Of the contour in the tables, contour_easy_fate says why a ring is what it is, contour_easy_answer what a polygon
 * answers for a ring, and contour_easy_smoothed_vertex what smoothing does to a vertex. They change no table:
 *
 *     contour_fate fate;
 *     if (contour_easy_fate(&tables, k, &fate) == CONTOUR_OK && fate.owner == CONTOUR_NO_OWNER)
 *         ... ring k is dropped ...
 *
 * A terrain that comes row by row:
 *
 *     contour_rows rows = contour_easy_rows();
 *     uint32_t number = contour_easy_begin(&rows, 1, CONTOUR_AT_LEAST, dx, dy);
 *     for (size_t y = 0; number == CONTOUR_OK && y < dy; y++) {
 *         ... the next row's dx values ...
 *         number = contour_easy_row(&rows, values, dx);
 *         for (uint32_t k = 0; k < rows.tables.rings; k++) {
 *             contour_ring ring = contour_easy_row_ring(&rows, k);
 *             ...
 *         }
 *     }
 *     if (number == CONTOUR_OK)
 *         number = contour_easy_end(&rows);
 *     ... the rings that close at the lower edge, in the same way ...
 *     contour_easy_free_rows(&rows);
 */
#ifndef CONTOUR_EASY_H
#define CONTOUR_EASY_H

#include "contour.h"

#include <stdlib.h>
#include <string.h>

/* Dx columns and dy rows of samples, row after row, and how many values there are. */
typedef struct contour_terrain {
    const double *values;
    size_t count, dx, dy;
} contour_terrain;

/* Where lines stand: x at x * x_step + x_origin, and y likewise. {0, 0, 1, 1} places nothing. */
typedef struct contour_placement {
    double x_origin, y_origin, x_step, y_step;
} contour_placement;

/* A figure and its tables. The first part is for reading, the rest is how the tables are kept. */
typedef struct contour_tables {
    /* How many rings or lines the figure has; its records, and its points: of rings, or of lines. */
    uint32_t rings;
    uint32_t *directory;
    uint16_t *points;
    double *vertices;
    /* The text of contour_easy_geojson, a null byte behind it, and its length without that. */
    char *text;
    size_t text_length;

    uint32_t *lines, *links;
    size_t directory_words, points_words, vertices_words, text_bytes, lines_words, links_words;
} contour_tables;

/* A ring of a figure: its record number, class and owner, so many points x, y, and their signed area, as contour_area
 * gives it. */
typedef struct contour_ring {
    uint32_t number, ring_class, owner, count;
    int64_t area;
    const uint16_t *points;
} contour_ring;

/* A line of a figure: its record number, so many vertices x, y, and the area of its ring before it was smoothed and
 * placed. */
typedef struct contour_line {
    uint32_t number, count;
    int64_t area;
    const double *vertices;
} contour_line;

/* What becomes of a ring: its class, its owner, and its vertex that decided, as contour_ring_fate sets them. */
typedef struct contour_fate {
    uint32_t ring_class, owner, vertex;
} contour_fate;

/* What a polygon answers for a ring: -1, 0 or 1, and the ring's vertex that decided, as contour_polygon_answer sets
 * them. */
typedef struct contour_decision {
    int32_t answer;
    uint32_t vertex;
} contour_decision;

/* What smoothing does to a coordinate, and, where that is CONTOUR_MOVED, by which fraction. */
typedef struct contour_coordinate {
    uint32_t kind;
    double fraction;
} contour_coordinate;

/* A terrain that comes row by row. Its tables, which draw nothing else meanwhile, hold the rings that the last call has
 * closed, of which the first has this number among all. */
typedef struct contour_rows {
    contour_tables tables;
    uint32_t first;

    uint32_t state[CONTOUR_ROWS_WORDS];
    size_t dx;
} contour_rows;

/* Tables without room. */
static inline contour_tables contour_easy_tables(void) {
    contour_tables tables;
    memset(&tables, 0, sizeof tables);
    return tables;
}

/* Gives all memory back. The tables are then as new. */
static inline void contour_easy_free(contour_tables *tables) {
    free(tables->directory);
    free(tables->points);
    free(tables->vertices);
    free(tables->text);
    free(tables->lines);
    free(tables->links);
    *tables = contour_easy_tables();
}

/* Ring k of a figure, for k below tables->rings. */
static inline contour_ring contour_easy_ring(const contour_tables *tables, uint32_t k) {
    const uint32_t *record = tables->directory + CONTOUR_DIRECTORY_WORDS(k);
    contour_ring ring;
    ring.number = k;
    ring.ring_class = record[CONTOUR_RECORD_CLASS];
    ring.owner = record[CONTOUR_RECORD_OWNER];
    ring.count = record[CONTOUR_RECORD_COUNT];
    ring.area = contour_record_area(record);
    ring.points = tables->points + 2 * (size_t)record[CONTOUR_RECORD_FIRST];
    return ring;
}

/* Line k of what contour_easy_lines has drawn, for k below tables->rings. */
static inline contour_line contour_easy_line(const contour_tables *tables, uint32_t k) {
    const uint32_t *record = tables->directory + CONTOUR_DIRECTORY_WORDS(k);
    contour_line line;
    line.number = k;
    line.count = record[CONTOUR_RECORD_COUNT];
    line.area = contour_record_area(record);
    line.vertices = tables->vertices + 2 * (size_t)record[CONTOUR_RECORD_FIRST];
    return line;
}

/* A table of as many words as are needed or more, with its number of words in *words: the one that is there, or
 * another. Where there is no memory, *words is 0. */
static inline void *contour_easy_room(void *table, size_t *words, size_t needed, size_t size) {
    if (needed <= *words)
        return table;
    free(table);
    table = malloc(needed * size);
    *words = table != NULL ? needed : 0;
    return table;
}

/* Room in the work tables and the directory for one or two sets of rings, by a first report. Sets *most to the
 * number of points that there are at most. */
static inline uint32_t contour_easy_lend(contour_tables *tables, size_t dx, size_t sets, uint32_t segments,
                                         uint32_t peak, size_t *most) {
    size_t rings = sets * segments / 4;
    size_t lines_words = CONTOUR_OPEN_WORDS(peak, dx), links_words = CONTOUR_LINK_WORDS(segments);
    size_t directory_words = CONTOUR_DIRECTORY_WORDS(rings);
    tables->lines = (uint32_t *)contour_easy_room(tables->lines, &tables->lines_words, lines_words, 4);
    tables->links = (uint32_t *)contour_easy_room(tables->links, &tables->links_words, links_words, 4);
    tables->directory =
        (uint32_t *)contour_easy_room(tables->directory, &tables->directory_words, directory_words, 4);
    *most = sets * segments + rings;
    if (tables->lines_words < lines_words || tables->links_words < links_words ||
        tables->directory_words < directory_words)
        return CONTOUR_NO_MEMORY;
    return CONTOUR_OK;
}

/* The same, and room for so many points. */
static inline uint32_t contour_easy_lend_points(contour_tables *tables, size_t dx, size_t sets, uint32_t segments,
                                                uint32_t peak) {
    size_t most, needed;
    uint32_t number = contour_easy_lend(tables, dx, sets, segments, peak, &most);
    if (number != CONTOUR_OK)
        return number;
    needed = CONTOUR_POINT_WORDS(most);
    tables->points = (uint16_t *)contour_easy_room(tables->points, &tables->points_words, needed, 2);
    return tables->points_words < needed ? CONTOUR_NO_MEMORY : CONTOUR_OK;
}

/* Empties the figure. */
static inline void contour_easy_clear(contour_tables *tables) {
    tables->rings = 0;
    tables->text_length = 0;
}

/* What contour_rings and contour_contours have in common. */
typedef uint32_t contour_easy_build(const double *, size_t, double, uint32_t, size_t, size_t, uint32_t *, size_t,
                                    uint32_t *, size_t, uint16_t *, size_t, uint32_t *, size_t, uint32_t *);

static inline uint32_t contour_easy_draw(contour_tables *tables, contour_terrain terrain, double threshold,
                                         uint32_t rule, contour_easy_build *build) {
    uint32_t segments, peak, number;
    contour_easy_clear(tables);
    number = contour_first_report(terrain.values, terrain.count, threshold, rule, terrain.dx, terrain.dy, &segments,
                                  &peak);
    if (number == CONTOUR_OK)
        number = contour_easy_lend_points(tables, terrain.dx, 1, segments, peak);
    if (number != CONTOUR_OK)
        return number;
    return build(terrain.values, terrain.count, threshold, rule, terrain.dx, terrain.dy, tables->lines,
                 tables->lines_words, tables->links, tables->links_words, tables->points, tables->points_words,
                 tables->directory, tables->directory_words, &tables->rings);
}

/* The rings, as contour_rings draws them. */
static inline uint32_t contour_easy_rings(contour_tables *tables, contour_terrain terrain, double threshold,
                                          uint32_t rule) {
    return contour_easy_draw(tables, terrain, threshold, rule, contour_rings);
}

/* The contour, as contour_contours draws it: polygons and holes. */
static inline uint32_t contour_easy_contours(contour_tables *tables, contour_terrain terrain, double threshold,
                                             uint32_t rule) {
    return contour_easy_draw(tables, terrain, threshold, rule, contour_contours);
}

/* The band of thresholds k and k + 1 of a list, as contour_isobands draws it: see there what to expect. */
static inline uint32_t contour_easy_isobands(contour_tables *tables, contour_terrain terrain,
                                             const double *thresholds, size_t thresholds_count, uint32_t rule,
                                             size_t k) {
    uint32_t segments, peak, number;
    contour_easy_clear(tables);
    number = contour_band_first_report(terrain.values, terrain.count, thresholds, thresholds_count, rule, k,
                                       terrain.dx, terrain.dy, &segments, &peak);
    if (number == CONTOUR_OK)
        number = contour_easy_lend_points(tables, terrain.dx, 2, segments, peak);
    if (number != CONTOUR_OK)
        return number;
    return contour_isobands(terrain.values, terrain.count, thresholds, thresholds_count, rule, k, terrain.dx,
                            terrain.dy, tables->lines, tables->lines_words, tables->links, tables->links_words,
                            tables->points, tables->points_words, tables->directory, tables->directory_words,
                            &tables->rings);
}

/* The lines, as contour_lines draws them, smoothed unless smooth is 0. */
static inline uint32_t contour_easy_lines(contour_tables *tables, contour_terrain terrain, double threshold,
                                          uint32_t rule, uint32_t smooth, contour_placement at) {
    uint32_t segments, peak, number;
    size_t most, needed;
    contour_easy_clear(tables);
    number = contour_first_report(terrain.values, terrain.count, threshold, rule, terrain.dx, terrain.dy, &segments,
                                  &peak);
    if (number == CONTOUR_OK)
        number = contour_easy_lend(tables, terrain.dx, 1, segments, peak, &most);
    if (number != CONTOUR_OK)
        return number;
    needed = CONTOUR_POINT_WORDS(most);
    tables->vertices =
        (double *)contour_easy_room(tables->vertices, &tables->vertices_words, needed, sizeof(double));
    if (tables->vertices_words < needed)
        return CONTOUR_NO_MEMORY;
    return contour_lines(terrain.values, terrain.count, threshold, rule, terrain.dx, terrain.dy, smooth,
                         at.x_origin, at.y_origin, at.x_step, at.y_step, tables->lines, tables->lines_words,
                         tables->links, tables->links_words, tables->vertices, tables->vertices_words,
                         tables->directory, tables->directory_words, &tables->rings);
}

/* Writes the contour or the band in the tables as GeoJSON, as contour_geojson does, to tables->text. Returns
 * CONTOUR_BAD_RING_SET for bare rings and lines, which have no polygons. */
static inline uint32_t contour_easy_geojson(contour_tables *tables) {
    uint64_t length;
    uint32_t number;
    tables->text_length = 0;
    number = contour_geojson_length(tables->points, tables->points_words, tables->directory,
                                    tables->directory_words, tables->rings, &length);
    if (number != CONTOUR_OK)
        return number;
    tables->text = (char *)contour_easy_room(tables->text, &tables->text_bytes, (size_t)length + 1, 1);
    if (tables->text_bytes <= length)
        return CONTOUR_NO_MEMORY;
    number = contour_geojson(tables->points, tables->points_words, tables->directory, tables->directory_words,
                             tables->rings, (uint8_t *)tables->text, tables->text_bytes, &length);
    if (number != CONTOUR_OK)
        return number;
    tables->text_length = (size_t)length;
    tables->text[length] = 0;
    return CONTOUR_OK;
}

/* Why ring k of the contour in the tables is what it is, as contour_ring_fate says. Returns CONTOUR_BAD_RING_SET for
 * bare rings and lines, as the next two calls do. */
static inline uint32_t contour_easy_fate(const contour_tables *tables, uint32_t k, contour_fate *fate) {
    return contour_ring_fate(tables->points, tables->points_words, tables->directory, tables->directory_words,
                             tables->rings, k, &fate->ring_class, &fate->owner, &fate->vertex);
}

/* What a polygon in the tables answers for ring k, as contour_polygon_answer says. */
static inline uint32_t contour_easy_answer(const contour_tables *tables, uint32_t polygon, uint32_t k,
                                           contour_decision *decision) {
    return contour_polygon_answer(tables->points, tables->points_words, tables->directory, tables->directory_words,
                                  tables->rings, polygon, k, &decision->answer, &decision->vertex);
}

/* What smoothing does to a vertex of ring k, as contour_smoothed_vertex says. The rings of a contour are the lines of
 * its terrain, threshold and rule, vertex by vertex. */
static inline uint32_t contour_easy_smoothed_vertex(const contour_tables *tables, contour_terrain terrain,
                                                    double threshold, uint32_t rule, uint32_t k, uint32_t vertex,
                                                    contour_coordinate *x, contour_coordinate *y) {
    return contour_smoothed_vertex(terrain.values, terrain.count, threshold, rule, terrain.dx, terrain.dy,
                                   tables->points, tables->points_words, tables->directory, tables->directory_words,
                                   tables->rings, k, vertex, &x->kind, &x->fraction, &y->kind, &y->fraction);
}

/* A terrain that was not begun: a row is refused with 13 or 14, and the end with 14. */
static inline contour_rows contour_easy_rows(void) {
    contour_rows rows;
    memset(&rows, 0, sizeof rows);
    return rows;
}

/* Gives all memory back. The terrain is then as new. */
static inline void contour_easy_free_rows(contour_rows *rows) {
    contour_easy_free(&rows->tables);
    *rows = contour_easy_rows();
}

/* Begins a terrain, in the memory of the one before. Returns CONTOUR_OK; or 1, and the one before goes on; or
 * CONTOUR_NO_MEMORY, and none is begun. */
static inline uint32_t contour_easy_begin(contour_rows *rows, double threshold, uint32_t rule, size_t dx, size_t dy) {
    contour_tables *t = &rows->tables;
    size_t needed = CONTOUR_ROWS_OPEN_WORDS(dx);
    uint32_t number = contour_rows_begin(threshold, rule, dx, dy, rows->state);
    if (number != CONTOUR_OK)
        return number;
    contour_easy_clear(t);
    rows->first = 0;
    rows->dx = dx;
    t->lines = (uint32_t *)contour_easy_room(t->lines, &t->lines_words, needed, 4);
    if (needed <= t->lines_words)
        return CONTOUR_OK;
    memset(rows->state, 0, sizeof rows->state);
    return CONTOUR_NO_MEMORY;
}

/* Twice the room in the table that a refusal names. The words of the link table are kept. */
static inline uint32_t contour_easy_widen(contour_rows *rows, uint32_t number) {
    contour_tables *tables = &rows->tables;
    size_t words;
    void *table;
    switch (number) {
    case CONTOUR_LINKS_SHORT:
        words = 2 * tables->links_words + CONTOUR_LINK_WORDS(rows->dx);
        table = realloc(tables->links, 4 * words);
        if (table == NULL)
            return CONTOUR_NO_MEMORY;
        tables->links = (uint32_t *)table;
        tables->links_words = words;
        return CONTOUR_OK;
    case CONTOUR_POINTS_SHORT:
        words = 2 * tables->points_words + CONTOUR_POINT_WORDS(rows->dx);
        tables->points = (uint16_t *)contour_easy_room(tables->points, &tables->points_words, words, 2);
        return tables->points_words < words ? CONTOUR_NO_MEMORY : CONTOUR_OK;
    case CONTOUR_DIRECTORY_SHORT:
        words = 2 * tables->directory_words + CONTOUR_DIRECTORY_WORDS(rows->dx);
        tables->directory = (uint32_t *)contour_easy_room(tables->directory, &tables->directory_words, words, 4);
        return tables->directory_words < words ? CONTOUR_NO_MEMORY : CONTOUR_OK;
    default:
        return number;
    }
}

/* A row, or the end, with as much room as it needs. */
static inline uint32_t contour_easy_advance(contour_rows *rows, const double *values, size_t count, int ends) {
    contour_tables *t = &rows->tables;
    uint32_t number;
    rows->first += t->rings;
    contour_easy_clear(t);
    do {
        number = ends ? contour_rows_end(rows->state, t->lines, t->lines_words, t->links, t->links_words, t->points,
                                         t->points_words, t->directory, t->directory_words, &t->rings)
                      : contour_rows_row(rows->state, values, count, t->lines, t->lines_words, t->links,
                                         t->links_words, t->points, t->points_words, t->directory,
                                         t->directory_words, &t->rings);
        if (number == CONTOUR_OK)
            return CONTOUR_OK;
        number = contour_easy_widen(rows, number);
    } while (number == CONTOUR_OK);
    return number;
}

/* The next row. Returns CONTOUR_OK, and the tables hold the rings that close in it; or 13, 14 or CONTOUR_NO_MEMORY,
 * and the tables hold none; a row that was refused may be handed over again. */
static inline uint32_t contour_easy_row(contour_rows *rows, const double *values, size_t count) {
    return contour_easy_advance(rows, values, count, 0);
}

/* The end, after the last row. Returns CONTOUR_OK, and the tables hold the rings that close at the lower edge; or 14
 * or CONTOUR_NO_MEMORY, and the tables hold none. */
static inline uint32_t contour_easy_end(contour_rows *rows) {
    return contour_easy_advance(rows, NULL, 0, 1);
}

/* Ring k of those that the last row or the end has closed, for k below rows->tables.rings; its number counts from
 * the first row on. */
static inline contour_ring contour_easy_row_ring(const contour_rows *rows, uint32_t k) {
    contour_ring ring = contour_easy_ring(&rows->tables, k);
    ring.number += rows->first;
    return ring;
}

#endif
