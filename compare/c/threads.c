/*
 * Calls on separate tables in several threads at once, over values that they share: each has to leave what a single
 * thread leaves. Run it under a tool that sees races, such as ThreadSanitizer or valgrind's drd.
 */
#include "checks.h"
#include "contour_easy.h"

#include <pthread.h>

#define SIDE 96
#define THREADS 4
#define ROUNDS 8

static double values[SIDE * SIDE];
static const contour_terrain terrain = {values, SIDE * SIDE, SIDE, SIDE};
static const double levels[] = {1, 2, 3, 4};

/* A sum over everything that the calls leave. */
static uint64_t sum(uint64_t so_far, const void *bytes, size_t count) {
    const unsigned char *byte = (const unsigned char *)bytes;
    for (size_t k = 0; k < count; k++) {
        so_far = so_far * UINT64_C(1099511628211) + byte[k];
    }
    return so_far;
}

static uint64_t sum_of(uint64_t so_far, contour_tables *tables, uint32_t number) {
    so_far = sum(so_far, &number, sizeof number);
    so_far = sum(so_far, tables->directory, sizeof *tables->directory * CONTOUR_DIRECTORY_WORDS(tables->rings));
    for (uint32_t k = 0; k < tables->rings; k++) {
        contour_ring ring = contour_easy_ring(tables, k);
        so_far = sum(so_far, ring.points, 4 * (size_t)ring.count);
    }
    return so_far;
}

/* All figures, by both rules, in tables of this call alone. */
static uint64_t draw(void) {
    contour_tables tables = contour_easy_tables();
    const contour_placement at = {1, 2, 3, 4};
    uint64_t so_far = 0;
    for (size_t n = 0; n < 6; n++) {
        size_t k = n / 2;
        uint32_t rule = n % 2 ? CONTOUR_MORE_THAN : CONTOUR_AT_LEAST;
        so_far = sum_of(so_far, &tables, contour_easy_rings(&tables, terrain, levels[k], rule));
        so_far = sum_of(so_far, &tables, contour_easy_contours(&tables, terrain, levels[k], rule));
        so_far = sum_of(so_far, &tables, contour_easy_isobands(&tables, terrain, levels, 4, rule, k));
        so_far += contour_easy_geojson(&tables);
        so_far = sum(so_far, tables.text, tables.text_length);
        so_far += contour_easy_lines(&tables, terrain, levels[k], rule, 1, at);
        so_far = sum(so_far, tables.vertices, 16 * (size_t)contour_easy_line(&tables, 0).count);
    }
    contour_easy_free(&tables);
    return so_far;
}

static void *run(void *result) {
    uint64_t *sums = (uint64_t *)result;
    for (int k = 0; k < ROUNDS; k++) {
        sums[k] = draw();
    }
    return NULL;
}

int main(void) {
    static uint64_t sums[THREADS][ROUNDS];
    pthread_t threads[THREADS];
    uint64_t alone;
    fill(values, SIDE * SIDE);
    alone = draw();
    for (int k = 0; k < THREADS; k++) {
        CHECK(pthread_create(&threads[k], NULL, run, sums[k]) == 0);
    }
    for (int k = 0; k < THREADS; k++) {
        CHECK(pthread_join(threads[k], NULL) == 0);
        for (int n = 0; n < ROUNDS; n++) {
            CHECK(sums[k][n] == alone);
        }
    }
    return finish("threads");
}
