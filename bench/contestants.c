/* The contestants, each behind the same signature. */
#include "contest.h"

#include <stdio.h>
#include <stdlib.h>
#include <string.h>

#include "careful.h"
#include "mtb.h"

enum { BAND = 8 };

static size_t raster_len(const struct job *j) { return (size_t)3 * j->w * j->h; }

/* A pair call of the library for a pair, a series call otherwise. */
static void call_library(__typeof__(mtb_pair) *pair, __typeof__(mtb_series) *series, const struct job *j,
                         const struct memory *m, struct answer *a)
{
    size_t len = raster_len(j), levels = j->s + 1;
    uint32_t refused;
    if (j->n == 2) {
        a->offsets[0] = a->offsets[1] = 0;
        refused = pair(j->w, j->h, j->s, j->tolerance, j->percentiles[0], j->rasters, len, j->rasters + len, len,
                       &a->offsets[2], &a->offsets[3], a->counts, CANDIDATES * levels, a->compared,
                       CANDIDATES * levels, m->grey, m->grey_len, m->words, m->words_len);
    } else {
        refused = series(j->w, j->h, j->s, j->tolerance, j->n, 0, j->percentiles, j->n - 1, j->rasters, j->n * len,
                         a->offsets, 2 * j->n, a->counts, CANDIDATES * levels * (j->n - 1), a->compared,
                         CANDIDATES * levels * (j->n - 1), m->grey, m->grey_len, m->words, m->words_len);
    }
    if (refused != 0) {
        fprintf(stderr, "the library refused %u by %u, s = %u: number %u\n", j->w, j->h, j->s, refused);
        exit(1);
    }
}

/* The calls that keep Ward's order, as the careful C program and OpenCV do. */
static void library(const struct job *j, const struct memory *m, struct answer *a)
{
    call_library(mtb_pair_ward, mtb_series_ward, j, m, a);
}

/* The calls that prefer the least move. */
static void least_move(const struct job *j, const struct memory *m, struct answer *a)
{
    call_library(mtb_pair, mtb_series, j, m, a);
}

/* The calls by a noise band, one for all jobs: how wide it is does not change the work. */
static void by_band(const struct job *j, const struct memory *m, struct answer *a)
{
    struct job banded = *j;
    banded.tolerance = BAND; /* the band stands in the tolerance's place */
    call_library(mtb_pair_band, mtb_series_band, &banded, m, a);
}

/* The careful C program, which counts compared pixels where it is told to write them. */
static void call_careful(const struct job *j, const struct memory *m, struct answer *a, uint32_t *compared)
{
    if (j->n == 2) {
        a->offsets[0] = a->offsets[1] = 0;
        careful_pair(j->w, j->h, j->s, j->tolerance, j->percentiles[0], j->rasters, j->rasters + raster_len(j),
                     &a->offsets[2], &a->offsets[3], a->counts, compared, m->grey, m->words);
    } else {
        careful_series(j->w, j->h, j->s, j->tolerance, j->n, 0, j->percentiles, j->rasters, a->offsets, a->counts,
                       compared, m->grey, m->words);
    }
}

static void careful(const struct job *j, const struct memory *m, struct answer *a)
{
    call_careful(j, m, a, a->compared);
}

static void only_differences(const struct job *j, const struct memory *m, struct answer *a)
{
    call_careful(j, m, a, NULL);
}

/* The floor: every byte of the rasters read and written once. */
static void copy(const struct job *j, const struct memory *m, struct answer *a)
{
    (void)a;
    memcpy(m->copy, j->rasters, j->n * raster_len(j));
}

const struct contestant contestants[] = {
    {"library", library, ALL_NUMBERS},
    {"least move", least_move, NOTHING},
    {"band", by_band, NOTHING},
    {"careful C", careful, ALL_NUMBERS},
    {"only differences", only_differences, OFFSETS_AND_COUNTS},
#ifdef WITH_OPENCV
    {"OpenCV", opencv_align, NOTHING},
#endif
    {"memcpy", copy, NOTHING},
};
const size_t contestants_len = sizeof contestants / sizeof contestants[0];
