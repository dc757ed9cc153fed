/*
 * Rings of a terrain of samples, their areas and containment, the polygons with holes that they make, these as
 * GeoJSON, and smoothed and placed lines: the C interface of libcontour_c.
 *
 * The library allocates nothing and keeps nothing between calls. The caller lends every table. A call
 * returns CONTOUR_OK, which is 0, and has done its work, or returns the number of a refusal. Every input has an
 * answer: each pointer need only reach the words that its count states, and what a call may write must not
 * overlap anything else that it is lent. Where the count is 0 the pointer may be NULL; a pointer to an output
 * may not.
 *
 * The order of calls. A first report sizes the work tables, a second report the outputs, and then a figure is
 * drawn; here the contour at a threshold t, of the samples that are at least t:
 *
 *     uint32_t s, h, r, p;
 *     contour_first_report(values, dx * dy, t, CONTOUR_AT_LEAST, dx, dy, &s, &h);
 *     size_t lines_words = CONTOUR_OPEN_WORDS(h, dx), links_words = CONTOUR_LINK_WORDS(s);
 *     uint32_t *lines = malloc(4 * lines_words), *links = malloc(4 * links_words);
 *     contour_second_report(values, dx * dy, t, CONTOUR_AT_LEAST, dx, dy, lines, lines_words, links, links_words,
 *                           &s, &r, &h, &p);
 *     size_t points_words = CONTOUR_POINT_WORDS(p), directory_words = CONTOUR_DIRECTORY_WORDS(r);
 *     uint16_t *points = malloc(2 * points_words);
 *     uint32_t *directory = malloc(4 * directory_words);
 *     contour_contours(values, dx * dy, t, CONTOUR_AT_LEAST, dx, dy, lines, lines_words, links, links_words,
 *                      points, points_words, directory, directory_words, &r);
 *     for (uint32_t k = 0; k < r; k++) {
 *         const uint32_t *record = directory + CONTOUR_RECORD_WORDS * (size_t)k;
 *         const uint16_t *ring = points + 2 * (size_t)record[CONTOUR_RECORD_FIRST];
 *         ... record[CONTOUR_RECORD_COUNT] points x, y, record[CONTOUR_RECORD_CLASS] and [CONTOUR_RECORD_OWNER],
 *             contour_record_area(record) ...
 *     }
 *
 * Each call may be refused, which this leaves out. contour_geojson writes such a figure as text, and
 * contour_easy.h beside this file does all of it in one call, with tables that it owns.
 *
 * Row by row. A caller who cannot hold the terrain hands it over a row at a time, and is given the rings that close
 * in each row. There is no report: the open table is lent at its bound, and a call that is refused with 6, 7 or 8
 * has changed nothing, so that it is made again with a longer table.
 *
 *     uint32_t state[CONTOUR_ROWS_WORDS], rings;
 *     size_t lines_words = CONTOUR_ROWS_OPEN_WORDS(dx);
 *     contour_rows_begin(t, CONTOUR_AT_LEAST, dx, dy, state);
 *     for (size_t y = 0; y < dy; y++) {
 *         ... the next row's dx values ...
 *         contour_rows_row(state, values, dx, lines, lines_words, links, links_words,
 *                          points, points_words, directory, directory_words, &rings);
 *         ... so many rings, each as above ...
 *     }
 *     contour_rows_end(state, lines, lines_words, links, links_words,
 *                      points, points_words, directory, directory_words, &rings);
 *     ... the rings that close at the lower edge ...
 *
 * The terrain: dx columns and dy rows, each from 1 to CONTOUR_SIDE_LIMIT, 4,096, and dx * dy values, row after
 * row. The rule says how a sample is held to the threshold. Under CONTOUR_AT_LEAST, which is 0, it is above when its
 * value >= threshold; under CONTOUR_MORE_THAN, and any other number that is not 0, when its value > threshold. A NaN
 * on either side is not above under either rule. Outside the grid nothing is above. The calls that draw one figure
 * are to have the same rule, as they have the same threshold; the rule of a band holds for both its thresholds.
 *
 * Coordinates are doubled whole numbers: sample (column, row) stands at (2 * column + 1, 2 * row + 1), and
 * every coordinate is at most CONTOUR_COORDINATE_LIMIT, 8,192. A ring is a closed list of points, its first
 * point repeated last, as words x, y, x, y, and so on. A ring about samples that are above has a positive area,
 * a hole a negative one. The coordinates of lines are doubles: before a line is placed, sample (column, row)
 * stands at (column + 0.5, row + 0.5).
 *
 * Sizes: S is the number of segments drawn, R the number of rings, H the largest number of lines that are
 * open at a time.
 *
 *     table          words             of type
 *     open table     4 * H + dx + 2    uint32_t
 *     link table     2 * S             uint32_t
 *     points         2 * (S + R)       uint16_t, of lines double
 *     directory      6 * R             uint32_t
 *
 * contour_first_report gives S and H, which size both work tables. contour_second_report, lent these,
 * gives R and the number of points S + R too, which size the outputs. R is at most S / 4, for a caller who
 * would rather not ask twice. S is at most 2 * dx * dy + dx + dy, and H at most (dx + 2) / 2.
 *
 * A contour and lines take the room of their rings. A band has two sets of rings, one for either threshold,
 * and needs the larger H, the larger S, and the sums of the sets' points and rings. contour_band_first_report
 * gives H and S, contour_band_second_report R and the number of points too, which is at most 2 * S + R here. R
 * is at most S / 2.
 *
 * Row by row, each call needs room for itself alone:
 *
 *     table          words
 *     open table     dx + 2, and 4 for each of the most lines that are open after a cell of the call
 *     link table     2 for each of the most segments in no closed ring after a cell of the call
 *     points         2 for each point of the rings that close in the call
 *     directory      6 for each of these rings
 *
 * CONTOUR_ROWS_OPEN_WORDS(dx) words of the open table are enough at any height. The links of a ring that has closed
 * are used again at once, so the link table goes by what is unfinished and not by S.
 *
 * A directory record has six words: the number of the ring's first point, its number of points, its class, its
 * owner, and its signed area in two words. The class is 0 for a polygon, 1 for a hole and 2 for a bare ring or a
 * line. A polygon owns itself, and a hole has the record number of its polygon for owner. CONTOUR_NO_OWNER,
 * 4,294,967,295, is no owner: a bare ring and a line have none, and a hole that belongs to no polygon is dropped.
 * The area is that of contour_area for the ring's points, in two's complement, its low word first; a line has the
 * area of its ring before it was smoothed and placed. contour_record_area reads it.
 *
 * Refusals. The first that applies is returned, alone. That is the lowest, but 13 and 14 come before 5:
 *
 *      1   a side is 0 or above 4,096
 *      2   the number of values is not dx * dy
 *      3   a band's list has fewer than two thresholds
 *      4   a band's list has no pair of thresholds k and k + 1
 *      5   the open table is short
 *      6   the link table is short
 *      7   the points are short
 *      8   the directory is short
 *      9   a ring set is faulty, as contour_check says below
 *     10   the room for the text is short
 *     11   a ring has an odd number of words, no point, more than 67,108,864 points or a coordinate above
 *          8,192
 *     13   a row has not dx values
 *     14   a row after the last, an end before the last row, or a second end
 *     15   a ring or a vertex whose number is not in the tables, or a vertex that does not stand midway between
 *          two neighbouring samples of which at least one is in the grid
 *
 * Number 12 is the program's, contour_geojson.
 *
 * A refused call changes nothing, except that 7 and 8 leave zeros in the needed words of both work tables,
 * as success does; row by row they leave the work tables as they were. What the work tables hold at entry does not
 * matter, but for those of a row after the first and of the end. Words past the need never change.
 *
 * Threads. The library has no memory of its own, so any number of calls may run at once, as long as nothing
 * that one of them writes is lent to another. They may share the values, the thresholds and finished figures,
 * which are only read. A state and its work tables go from call to call, from one thread to another too.
 *
 * Stack. A call takes less than CONTOUR_STACK_BYTES of it, whatever the terrain; that is measured on the
 * compiled code and not proved. The largest frame has some 4,700 bytes, and no function but the sort of
 * records calls itself.
 */
#ifndef CONTOUR_H
#define CONTOUR_H

#include <stddef.h>
#include <stdint.h>

/* The version of this header and of the library that was installed with it. */
#define CONTOUR_VERSION_MAJOR 0
#define CONTOUR_VERSION_MINOR 5
#define CONTOUR_VERSION_PATCH 0
#define CONTOUR_VERSION "0.5.0"

/* What a call returns. */
#define CONTOUR_OK 0u
#define CONTOUR_BAD_SIDE 1u
#define CONTOUR_BAD_VALUE_COUNT 2u
#define CONTOUR_FEW_THRESHOLDS 3u
#define CONTOUR_NO_PAIR 4u
#define CONTOUR_OPEN_SHORT 5u
#define CONTOUR_LINKS_SHORT 6u
#define CONTOUR_POINTS_SHORT 7u
#define CONTOUR_DIRECTORY_SHORT 8u
#define CONTOUR_BAD_RING_SET 9u
#define CONTOUR_TEXT_SHORT 10u
#define CONTOUR_BAD_RING 11u
#define CONTOUR_BAD_ROW 13u
#define CONTOUR_BAD_TURN 14u
#define CONTOUR_NOT_THERE 15u
/* No call here returns this: those of contour_easy.h do where malloc has nothing left. */
#define CONTOUR_NO_MEMORY 255u

/* The rules: a sample is above when its value is at least the threshold, or when it is more. */
#define CONTOUR_AT_LEAST 0u
#define CONTOUR_MORE_THAN 1u

/* The classes of a ring, and the owner of one that has none. */
#define CONTOUR_POLYGON 0u
#define CONTOUR_HOLE 1u
#define CONTOUR_LINE 2u
#define CONTOUR_NO_OWNER 4294967295u

/* What contour_contains and contour_polygon_answer answer. */
#define CONTOUR_INSIDE 1
#define CONTOUR_BOUNDARY 0
#define CONTOUR_OUTSIDE (-1)

/* The number of a vertex where none decides. */
#define CONTOUR_NO_VERTEX 4294967295u

/* What smoothing does to a coordinate: it stays, it moves by a fraction, or the fraction is not a number. */
#define CONTOUR_STAYED 0u
#define CONTOUR_MOVED 1u
#define CONTOUR_NOT_A_NUMBER 2u

/* The limits: of a side, of a coordinate, of the points of one ring, and of the stack that a call takes. */
#define CONTOUR_SIDE_LIMIT 4096u
#define CONTOUR_COORDINATE_LIMIT 8192u
#define CONTOUR_POINT_LIMIT 67108864u
#define CONTOUR_STACK_BYTES 16384u

/* The words of a directory record: how many, and which is which. */
#define CONTOUR_RECORD_WORDS 6u
#define CONTOUR_RECORD_FIRST 0u
#define CONTOUR_RECORD_COUNT 1u
#define CONTOUR_RECORD_CLASS 2u
#define CONTOUR_RECORD_OWNER 3u
#define CONTOUR_RECORD_AREA_LOW 4u
#define CONTOUR_RECORD_AREA_HIGH 5u

/* The words of the state of a terrain that comes row by row. */
#define CONTOUR_ROWS_WORDS 141u

/* The words of each table, by what the reports give. */
#define CONTOUR_OPEN_WORDS(peak, dx) (4 * (size_t)(peak) + (size_t)(dx) + 2)
#define CONTOUR_LINK_WORDS(segments) (2 * (size_t)(segments))
#define CONTOUR_POINT_WORDS(points) (2 * (size_t)(points))
#define CONTOUR_DIRECTORY_WORDS(rings) (CONTOUR_RECORD_WORDS * (size_t)(rings))
/* The words of an open table with which no row draws 5. */
#define CONTOUR_ROWS_OPEN_WORDS(dx) CONTOUR_OPEN_WORDS(((size_t)(dx) + 2) / 2, dx)

#ifdef __cplusplus
extern "C" {
#endif

/* What a returned number says, in words, without a point at the end. Never NULL. */
static inline const char *contour_strerror(uint32_t number) {
    switch (number) {
    case CONTOUR_OK:
        return "no refusal";
    case CONTOUR_BAD_SIDE:
        return "a side of the terrain is 0 or above 4,096";
    case CONTOUR_BAD_VALUE_COUNT:
        return "the number of values is not columns times rows";
    case CONTOUR_FEW_THRESHOLDS:
        return "the list has fewer than two thresholds";
    case CONTOUR_NO_PAIR:
        return "the list has no pair of thresholds k and k + 1";
    case CONTOUR_OPEN_SHORT:
        return "the open table is short";
    case CONTOUR_LINKS_SHORT:
        return "the link table is short";
    case CONTOUR_POINTS_SHORT:
        return "the points are short";
    case CONTOUR_DIRECTORY_SHORT:
        return "the directory is short";
    case CONTOUR_BAD_RING_SET:
        return "the ring set is faulty";
    case CONTOUR_TEXT_SHORT:
        return "the room for the text is short";
    case CONTOUR_BAD_RING:
        return "a ring is empty or odd, has over 67,108,864 points or a coordinate above 8,192";
    case CONTOUR_BAD_ROW:
        return "the row has not a value for each column";
    case CONTOUR_BAD_TURN:
        return "all rows are there already, or not yet, or the end was taken";
    case CONTOUR_NOT_THERE:
        return "there is no ring or vertex of this number, or the vertex stands between no samples";
    case CONTOUR_NO_MEMORY:
        return "there is no memory left";
    default:
        return "no number of this library";
    }
}

/* The signed area that a record holds. */
static inline int64_t contour_record_area(const uint32_t *record) {
    return (int64_t)((uint64_t)record[CONTOUR_RECORD_AREA_HIGH] << 32 | record[CONTOUR_RECORD_AREA_LOW]);
}

/* Puts a signed area, as contour_area gives it, into a record: for a ring set that is made by hand. */
static inline void contour_record_set_area(uint32_t *record, int64_t area) {
    record[CONTOUR_RECORD_AREA_LOW] = (uint32_t)(uint64_t)area;
    record[CONTOUR_RECORD_AREA_HIGH] = (uint32_t)((uint64_t)area >> 32);
}

/*
 * Counts S and H with no table at all.
 *
 * Returns 0 and sets *segments to S and *peak to H; or returns 1 or 2.
 */
uint32_t contour_first_report(const double *values, size_t count, double threshold, uint32_t rule, size_t dx,
                              size_t dy, uint32_t *segments, uint32_t *peak);

/*
 * Counts S, R, H and the points of all rings with both work tables: lines is the open table, links the link
 * table.
 *
 * Returns 0, sets *segments to S, *rings to R, *peak to H and *points to S + R, and leaves zeros in the
 * needed words of both work tables; or returns 1, 2, 5 or 6.
 */
uint32_t contour_second_report(const double *values, size_t count, double threshold, uint32_t rule, size_t dx,
                               size_t dy, uint32_t *lines, size_t lines_words, uint32_t *links, size_t links_words,
                               uint32_t *segments, uint32_t *rings, uint32_t *peak, uint32_t *points);

/*
 * Draws the rings of the terrain, in the order in which they close.
 *
 * Returns 0, sets *rings to R, and leaves zeros in the needed words of both work tables. The points of all
 * rings stand one ring after the other, and the directory has a record a ring, of class 2 and without owner.
 * The record of ring k begins at word CONTOUR_DIRECTORY_WORDS(k).
 *
 * Or returns 1, 2, 5, 6, 7 or 8; points, directory and *rings then stay as they were.
 */
uint32_t contour_rings(const double *values, size_t count, double threshold, uint32_t rule, size_t dx, size_t dy,
                       uint32_t *lines, size_t lines_words, uint32_t *links, size_t links_words, uint16_t *points,
                       size_t points_words, uint32_t *directory, size_t directory_words, uint32_t *rings);

/*
 * Draws the contour of the terrain: the rings of contour_rings, in the same order, as polygons and holes. A
 * ring is a polygon when its area is above 0. A hole belongs to the first polygon whose contour_contains for
 * it is not -1.
 *
 * Returns and leaves what contour_rings does, but for class and owner in the directory.
 */
uint32_t contour_contours(const double *values, size_t count, double threshold, uint32_t rule, size_t dx, size_t dy,
                          uint32_t *lines, size_t lines_words, uint32_t *links, size_t links_words,
                          uint16_t *points, size_t points_words, uint32_t *directory, size_t directory_words,
                          uint32_t *rings);

/*
 * Counts for the band of thresholds k and k + 1, counted from 0 in the list, with no table at all. The
 * thresholds may be in any order, equal, NaN or infinite.
 *
 * Returns 0 and sets *segments to the larger S and *peak to the larger H of the two sets of rings; or
 * returns 1, 2, 3 or 4.
 */
uint32_t contour_band_first_report(const double *values, size_t count, const double *thresholds,
                                   size_t thresholds_count, uint32_t rule, size_t k, size_t dx, size_t dy,
                                   uint32_t *segments, uint32_t *peak);

/*
 * Counts for a band with both work tables.
 *
 * Returns 0, sets *segments to the larger S, *rings to the sum of R, *peak to the larger H and *points to
 * the points of both sets together, and leaves zeros in the needed words of both work tables; or returns 1,
 * 2, 3, 4, 5 or 6.
 */
uint32_t contour_band_second_report(const double *values, size_t count, const double *thresholds,
                                    size_t thresholds_count, uint32_t rule, size_t k, size_t dx, size_t dy,
                                    uint32_t *lines, size_t lines_words, uint32_t *links, size_t links_words,
                                    uint32_t *segments, uint32_t *rings, uint32_t *peak, uint32_t *points);

/*
 * Draws the band of thresholds k and k + 1, counted from 0 in the list: the rings of both, as polygons and
 * interior rings.
 *
 * Returns 0, sets *rings to the number of rings of both sets, and leaves zeros in the needed words of both
 * work tables. The points stand lower set first, then upper, each in the order of contour_rings. The records
 * are sorted by the rings' |area| / 4, rounded down, the least first; equal ones stay in the order of their
 * points. A ring is a polygon when an even number of the other rings have a contour_contains for it that is
 * not -1, else an interior, of class 1. An interior belongs to the first polygon in this order whose
 * contour_contains for it is not -1.
 *
 * What to expect of it. Where the terrain jumps over the band from one sample to the next, a ring of the one
 * threshold shares edges with a ring of the other. Polygons may then touch themselves, their holes or each other
 * along edges, which readers of maps such as GEOS, shapely and PostGIS call invalid; an interior may belong to a
 * polygon that it is not in; and rings may be dropped, so that a sample between the thresholds is in no polygon:
 * of the rows 2 2 2, 2 1 2 and 2 2 0 the band from 1 to 2 has no polygon at all. For a map, draw
 * contour_contours at 1 of a terrain that is 1 where low <= value < high, or under CONTOUR_MORE_THAN where
 * low < value <= high, and 0 elsewhere: its polygons have the same edges midway between samples, hold every sample
 * of the band and no other, and are valid.
 *
 * Or returns 1, 2, 3, 4, 5, 6, 7 or 8; points, directory and *rings then stay as they were.
 */
uint32_t contour_isobands(const double *values, size_t count, const double *thresholds, size_t thresholds_count,
                          uint32_t rule, size_t k, size_t dx, size_t dy, uint32_t *lines, size_t lines_words,
                          uint32_t *links, size_t links_words, uint16_t *points, size_t points_words,
                          uint32_t *directory, size_t directory_words, uint32_t *rings);

/*
 * Draws the lines of the terrain: the rings of contour_rings, in the same order, with half their coordinates,
 * smoothed unless smooth is 0, then placed.
 *
 * Smoothing moves a coordinate that is whole, above 0 and below the side: x becomes
 * x + (threshold - v0) / (v1 - v0) - 0.5, where v1 is the sample in column x of the vertex's row and v0 the one
 * in the column before; y likewise, with the sample in row y of the vertex's column and the one in the row
 * before. Other coordinates stay. Placing makes x * x_step + x_origin and y * y_step + y_origin of x and y,
 * unless both origins are 0 and both steps are 1. Each operation is rounded once, from left to right. Numbers
 * that are infinite, NaN or huge may give coordinates that are infinite or NaN.
 *
 * Returns and leaves what contour_rings does, but for the points, which are doubles.
 */
uint32_t contour_lines(const double *values, size_t count, double threshold, uint32_t rule, size_t dx, size_t dy,
                       uint32_t smooth, double x_origin, double y_origin, double x_step, double y_step,
                       uint32_t *lines, size_t lines_words, uint32_t *links, size_t links_words, double *points,
                       size_t points_words, uint32_t *directory, size_t directory_words, uint32_t *rings);

/*
 * Begins a terrain that comes row by row, at one threshold and by one rule. The state is the caller's,
 * CONTOUR_ROWS_WORDS words that only these three calls read and write; it may be copied, with its work tables, and
 * both copies gone on with.
 *
 * Returns 0 and sets the state; or returns 1, and the state stays as it was.
 */
uint32_t contour_rows_begin(double threshold, uint32_t rule, size_t dx, size_t dy,
                            uint32_t state[CONTOUR_ROWS_WORDS]);

/*
 * Takes the next row of the terrain, draws what it shows of it, and hands out the rings that close. The rings of all
 * rows and of the end, one after the other, are those of contour_rings, in its order, with the same points.
 *
 * Between the calls the state holds which samples of the last row are above, and the work tables hold the unfinished
 * lines. So a call is lent the state that the last one left, and work tables that begin with the words that it left
 * and are no shorter: the same, or longer ones that they were copied to. Before the first row the tables may hold
 * anything. The points and the directory are for the call alone.
 *
 * Returns 0 and sets *rings to the number of rings that close in this call, their points one ring after the other
 * from the first word on, and a record a ring from the first directory word on, of class 2 and without owner.
 *
 * Or returns 13, 14, 5, 6, 7 or 8, the first of these that applies; state, tables and *rings then stay as they were,
 * and the call may be made again. The room is exact: 5 to 8 come exactly where a table is shorter than the call needs.
 *
 * A state or work tables with other words, or shorter tables, give some refusal or some answer, and nothing past the
 * words that are lent is read or written.
 *
 * A terrain whose height is not known beforehand is begun with CONTOUR_SIDE_LIMIT rows. Behind its last row comes a
 * row of values that are not above, as NaN, which closes every line; or, if there were so many rows, the end.
 */
uint32_t contour_rows_row(uint32_t state[CONTOUR_ROWS_WORDS], const double *values, size_t count, uint32_t *lines,
                          size_t lines_words, uint32_t *links, size_t links_words, uint16_t *points,
                          size_t points_words, uint32_t *directory, size_t directory_words, uint32_t *rings);

/*
 * Ends a terrain after its last row: hands out the rings that close at its lower edge, as contour_rows_row does. No
 * line is open then. The words of the work tables that the calls have used are zeros: CONTOUR_OPEN_WORDS(h, dx) of
 * the open table, h being the most lines that were open after any cell, and CONTOUR_LINK_WORDS(m) of the link table,
 * m being the most segments in no closed ring.
 *
 * Returns and leaves what contour_rows_row does, but for 13.
 */
uint32_t contour_rows_end(uint32_t state[CONTOUR_ROWS_WORDS], uint32_t *lines, size_t lines_words, uint32_t *links,
                          size_t links_words, uint16_t *points, size_t points_words, uint32_t *directory,
                          size_t directory_words, uint32_t *rings);

/*
 * The area of a ring: the sum over i of y(i-1) * x(i) - x(i-1) * y(i), the last point standing before the
 * first. That is eight times the enclosed area, in squares of one step from sample to sample.
 *
 * Returns 0 and sets *area; or returns 11.
 */
uint32_t contour_area(const uint16_t *ring, size_t ring_words, int64_t *area);

/*
 * A tested ring against an outer one: the first tested point that is not on the boundary decides. It is 1
 * inside, -1 outside, and 0 where every tested point is on the boundary or there is none. A point in the
 * row of a closed ring's first point counts as on the boundary, since the first point repeated last makes a
 * pair without length.
 *
 * Returns 0 and sets *answer; or returns 11. The tested ring may be empty, the outer one may not.
 */
uint32_t contour_contains(const uint16_t *outer, size_t outer_words, const uint16_t *tested, size_t tested_words,
                          int32_t *answer);

/*
 * Looks at a ring set: that of contour_contours or contour_isobands, or one made by hand. It is the points and
 * the first rings records of the directory; words behind these records do not matter, nor do points of no
 * record.
 *
 * It is faulty when the directory has fewer than CONTOUR_DIRECTORY_WORDS(rings) words, or when one of these records
 * has points that are not all there, fewer than 4 points or more than 67,108,864, a coordinate above 8,192, a last
 * point that is not the first, a class other than 0 and 1, as a polygon another owner than itself, as a hole an owner
 * that is neither the number of a polygon nor 4,294,967,295, or an area that is not that of its ring. So whoever has
 * checked a set may go by the areas in it.
 *
 * Returns 0; or returns 9 if it is faulty.
 */
uint32_t contour_check(const uint16_t *points, size_t points_words, const uint32_t *directory,
                       size_t directory_words, uint32_t rings);

/*
 * The number of bytes that contour_geojson writes for a ring set.
 *
 * Returns 0 and sets *length; or returns 9.
 */
uint32_t contour_geojson_length(const uint16_t *points, size_t points_words, const uint32_t *directory,
                                size_t directory_words, uint32_t rings, uint64_t *length);

/*
 * Writes a ring set as GeoJSON: one MultiPolygon, its polygons by record number, each followed by its holes by
 * number. A coordinate is written as its half, as 3 or as 2.5. Dropped holes are left out. Without polygons the
 * coordinates are [].
 *
 * Taken with y upward, as readers of maps take it, polygons run counterclockwise and holes clockwise, which RFC 7946
 * (3.1.6) asks for, whichever way their points stand in the tables: a polygon of positive area is written backwards,
 * and so is a hole of negative area, each from its first point; any other ring, of area 0 too, is written as it
 * stands. The polygon about one sample, (2,1)(1,0)(0,1)(1,2)(2,1) in the tables, is
 *
 *     {"type":"MultiPolygon","coordinates":[[[[1,0.5],[0.5,1],[0,0.5],[0.5,0],[1,0.5]]]]}
 *
 * There is no newline behind it, and no null byte.
 *
 * Returns 0 and sets *length to the number of bytes written; or returns 9 or 10; text and *length then stay as
 * they were. Bytes past the text never change.
 */
uint32_t contour_geojson(const uint16_t *points, size_t points_words, const uint32_t *directory,
                         size_t directory_words, uint32_t rings, uint8_t *text, size_t text_bytes,
                         uint64_t *length);

/*
 * What becomes of a ring of a contour, worked out from the points of the ring set alone: whatever class and owner
 * the records have, the answer is what contour_contours would have written for these rings. A ring whose area is
 * above 0 is a polygon. Any other is a hole of the polygon of lowest number whose answer for it is not -1, and so
 * every polygon of a lower number answers -1; where every polygon answers -1 the hole is dropped.
 *
 * Returns 0 and sets *ring_class to 0 or 1; *owner to the ring's own number for a polygon, the polygon's number for
 * a hole, CONTOUR_NO_OWNER for a dropped one; and *vertex to the number, in the ring, of the vertex that decided it
 * for its owner: it lies inside, and every vertex before it answers 0. Where every vertex answers 0, and for a
 * polygon or a dropped hole, *vertex is CONTOUR_NO_VERTEX. Or returns 9, or 15 where ring is not below rings; the
 * outputs then stay as they were.
 *
 * On the tables of contour_contours the time goes with the number of their points, and none is refused with 9. On a
 * ring set made by hand, whose rings may lie on each other, it may go with the points times those of the ring.
 */
uint32_t contour_ring_fate(const uint16_t *points, size_t points_words, const uint32_t *directory,
                           size_t directory_words, uint32_t rings, uint32_t ring, uint32_t *ring_class,
                           uint32_t *owner, uint32_t *vertex);

/*
 * What one ring of a ring set, called the polygon whatever its class, answers for another, as contour_contains
 * does, with the vertex that decided.
 *
 * Returns 0 and sets *answer to -1, 0 or 1, and *vertex to the number of the first vertex of the ring whose answer
 * is not 0, or to CONTOUR_NO_VERTEX where every vertex answers 0. Or returns 9, or 15 where polygon or ring is not
 * below rings; the outputs then stay as they were.
 */
uint32_t contour_polygon_answer(const uint16_t *points, size_t points_words, const uint32_t *directory,
                                size_t directory_words, uint32_t rings, uint32_t polygon, uint32_t ring,
                                int32_t *answer, uint32_t *vertex);

/*
 * What smoothing does to a vertex of a ring, as contour_lines does it to the terrain's lines: a coordinate stays, or
 * x becomes x + fraction - 0.5, where fraction is (threshold - v0) / (v1 - v0); or that fraction is not a number,
 * and then the coordinate of the line is none either. The rule is the ring's; no fraction depends on it.
 *
 * Returns 0 and sets *x_kind and *y_kind to CONTOUR_STAYED, CONTOUR_MOVED or CONTOUR_NOT_A_NUMBER, and *x_fraction
 * and *y_fraction where the coordinate moved; otherwise the fraction stays as it was. Or returns 1, 2, 9, or 15
 * where ring is not below rings, vertex not below the ring's number of points, or the vertex does not stand midway
 * between two neighbouring samples of which at least one is in the grid; the outputs then stay as they were.
 */
uint32_t contour_smoothed_vertex(const double *values, size_t count, double threshold, uint32_t rule, size_t dx,
                                 size_t dy, const uint16_t *points, size_t points_words, const uint32_t *directory,
                                 size_t directory_words, uint32_t rings, uint32_t ring, uint32_t vertex,
                                 uint32_t *x_kind, double *x_fraction, uint32_t *y_kind, double *y_fraction);

#ifdef __cplusplus
}
#endif

#endif
