/*
 * Reads ring sets from standard input and writes each as the library does, a line of GeoJSON for a set, or the number
 * of the refusal. A set is the number of its points, x and y of each, the number of its rings, and for each ring its
 * first point, its number of points, its class and its owner. Its area is what contour_area says. compare/outside
 * makes the sets and has others look at the lines.
 */
#include "contour.h"

#include <inttypes.h>
#include <stdio.h>
#include <stdlib.h>

/* Leaves the program, saying why. */
static void stop(const char *why) {
    fprintf(stderr, "sets: %s\n", why);
    exit(1);
}

/* Whether there is a next number. */
static int next(uint32_t *number) {
    return scanf("%" SCNu32, number) == 1;
}

static uint32_t read_number(void) {
    uint32_t number = 0;
    if (!next(&number)) {
        stop("a number is missing");
    }
    return number;
}

/* Room for so many words; never none. */
static void *room(size_t words, size_t size) {
    void *table = calloc(words + 1, size);
    if (table == NULL) {
        stop("there is no memory left");
    }
    return table;
}

/* Reads the record of a ring of these points. */
static void read_record(uint32_t *record, const uint16_t *points) {
    const uint16_t *ring;
    int64_t area;
    for (uint32_t k = 0; k <= CONTOUR_RECORD_OWNER; k++) {
        record[k] = read_number();
    }
    ring = points + CONTOUR_POINT_WORDS(record[CONTOUR_RECORD_FIRST]);
    if (contour_area(ring, CONTOUR_POINT_WORDS(record[CONTOUR_RECORD_COUNT]), &area) != CONTOUR_OK) {
        stop("a ring has no area");
    }
    contour_record_set_area(record, area);
}

static void write_text(const uint16_t *points, size_t points_words, const uint32_t *directory, uint32_t rings) {
    const size_t directory_words = CONTOUR_DIRECTORY_WORDS(rings);
    uint64_t length = 0;
    uint32_t number = contour_geojson_length(points, points_words, directory, directory_words, rings, &length);
    uint8_t *text = room((size_t)length, 1);
    if (number == CONTOUR_OK) {
        number = contour_geojson(points, points_words, directory, directory_words, rings, text, (size_t)length,
                                 &length);
    }
    if (number == CONTOUR_OK) {
        puts((const char *)text);
    } else {
        printf("refused %" PRIu32 "\n", number);
    }
    free(text);
}

int main(void) {
    uint32_t count;
    while (next(&count)) {
        const size_t points_words = CONTOUR_POINT_WORDS(count);
        uint16_t *points = room(points_words, sizeof *points);
        uint32_t *directory, rings;
        for (size_t k = 0; k < points_words; k++) {
            points[k] = (uint16_t)read_number();
        }
        rings = read_number();
        directory = room(CONTOUR_DIRECTORY_WORDS(rings), sizeof *directory);
        for (uint32_t k = 0; k < rings; k++) {
            read_record(directory + CONTOUR_DIRECTORY_WORDS(k), points);
        }
        write_text(points, points_words, directory, rings);
        free(directory);
        free(points);
    }
    return 0;
}
