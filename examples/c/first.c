/*
 * Prints the polygon of a 3 by 3 terrain that is above everywhere but in the centre: the figures of its rings,
 * and its GeoJSON. It is C++ as well.
 *
 *     cc -std=c99 -I include examples/c/first.c target/staticlib/libcontour_c.a -o first
 */
#include "contour_easy.h"
#include <stdio.h>

int main(void) {
    const double values[] = {1, 1, 1, 1, 0, 1, 1, 1, 1};
    const contour_terrain terrain = {values, 9, 3, 3};
    contour_tables tables = contour_easy_tables();
    uint32_t k, number = contour_easy_contours(&tables, terrain, 1.0, CONTOUR_AT_LEAST);
    if (number == CONTOUR_OK)
        number = contour_easy_geojson(&tables);
    if (number != CONTOUR_OK) {
        fprintf(stderr, "refusal %u: %s\n", number, contour_strerror(number));
        contour_easy_free(&tables);
        return 1;
    }
    for (k = 0; k < tables.rings; k++) {
        contour_ring ring = contour_easy_ring(&tables, k);
        printf("ring %u: a %s of %u points, owned by ring %u\n", ring.number,
               ring.ring_class == CONTOUR_POLYGON ? "polygon" : "hole", ring.count, ring.owner);
    }
    puts(tables.text);
    contour_easy_free(&tables);
    return 0;
}
