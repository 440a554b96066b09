/* Aligns a series of P6 files by mtb.h: how far each frame has to move onto the reference, how much of it was compared, and the
 * area that all of them show.
 *
 *     align_series [-s HALVINGS] [-t TOLERANCE] [-p PERCENTILE] [-r REFERENCE] FILE...
 *
 * Firmware does the same with less: its camera writes the rasters one after another, and each lend() is a static array. */

#include <inttypes.h>
#include <stdio.h>
#include <stdlib.h>
#include <string.h>

#include "desktop.h"
#include "mtb.h"

/* The most that a series can need, whatever its settings. */
enum { MOST_LEVELS = 9, MOST_PAIRS = 15, CANDIDATES = 9, MOST_COUNTS = CANDIDATES * MOST_LEVELS * MOST_PAIRS };

struct series {
    uint32_t w, h, s, tolerance, percentile, n, r;
    uint8_t *rasters;
};

/* Reads the frames into one buffer, one after another; the first one's size is the series'. */
static void read_frames(struct series *series, char **names)
{
    for (uint32_t k = 0; k < series->n; k++) {
        struct file file = read_file(names[k]);
        uint32_t w, h;
        size_t start, length;
        insist(names[k], mtb_p6_size(file.bytes, file.length, &w, &h));
        insist(names[k], mtb_p6_raster(file.bytes, file.length, &start, &length));
        if (k == 0) {
            series->w = w;
            series->h = h;
            series->rasters = lend(series->n, length);
        } else if (w != series->w || h != series->h) {
            fail(names[k], "not of the first frame's size");
        }
        memcpy(series->rasters + k * length, file.bytes + start, length);
        free(file.bytes);
    }
}

/* The place of a level's answer among its nine counts: of the least ones that which mtb_series prefers, the smallest step. */
static size_t answer_place(const uint32_t *counts)
{
    static const size_t preferred[CANDIDATES] = {4, 1, 7, 3, 5, 0, 2, 6, 8};
    size_t best = preferred[0];
    for (int k = 1; k < CANDIDATES; k++) {
        if (counts[preferred[k]] < counts[best]) {
            best = preferred[k];
        }
    }
    return best;
}

/* Writes the frames' offsets, dx before dy, and for each frame but the first how many pixels were compared when it was laid onto
 * the one before. On a board the work memory is two static arrays for the largest frame and s: at 640 by 480 and s = 5
 * uint8_t grey[819000] and uint64_t words[28800]. It is free again when the call is back. */
static void align(const struct series *series, int32_t *offsets, uint32_t *pixels)
{
    uint32_t w = series->w, h = series->h, s = series->s, n = series->n;
    size_t grey_len = mtb_grey_needed(w, h, s), words_len = mtb_words_needed(w, h, s);
    uint8_t *grey = lend(grey_len, sizeof *grey);
    uint64_t *words = lend(words_len, sizeof *words);
    static uint32_t counts[MOST_COUNTS], compared[MOST_COUNTS];

    uint32_t *percentiles = lend(n, sizeof *percentiles);
    for (uint32_t pair = 0; pair + 1 < n; pair++) {
        percentiles[pair] = series->percentile;
    }
    insist("the series", mtb_series(w, h, s, series->tolerance, n, series->r, percentiles, n - 1,
                                    series->rasters, (size_t)3 * w * h * n, offsets, (size_t)2 * n, counts, MOST_COUNTS,
                                    compared, MOST_COUNTS, grey, grey_len, words, words_len));
    for (uint32_t k = 1; k < n; k++) {
        size_t finest = CANDIDATES * ((size_t)k * (s + 1) - 1);    /* the last nine of the pair's numbers */
        pixels[k] = compared[finest + answer_place(counts + finest)];
    }
    free(percentiles);
    free(words);
    free(grey);
}

/* A line a frame: its offset, and the share of its pixels, in percent and rounded down, that was compared with those of the frame
 * before it. */
static void print_frames(const struct series *series, const int32_t *offsets, const uint32_t *pixels, char **names)
{
    puts("   dx    dy  compared");
    for (uint32_t k = 0; k < series->n; k++) {
        unsigned tenths = (unsigned)((uint64_t)1000 * pixels[k] / (series->w * series->h));
        printf("%5" PRId32 " %5" PRId32 " ", offsets[2 * k], offsets[2 * k + 1]);
        if (k == 0) {
            printf("%9s", "-");
        } else {
            printf("%5u.%u %%", tenths / 10, tenths % 10);
        }
        printf("  %s\n", names[k]);
    }
}

static void print_common_area(const struct series *series, const int32_t *offsets)
{
    uint32_t left, right, top, bottom;
    insist("the common area", mtb_common_area(series->w, series->h, series->n, offsets, (size_t)2 * series->n,
                                              &left, &right, &top, &bottom));
    printf("common area: %" PRIu32 " by %" PRIu32 ", columns %" PRIu32 " to %" PRIu32 ", rows %" PRIu32 " to %" PRIu32 "\n",
           right - left, bottom - top, left, right - 1, top, bottom - 1);
}

int main(int argc, char **argv)
{
    uint32_t settings[] = {[HALVINGS] = NOT_GIVEN, [TOLERANCE] = 0, [PERCENTILE] = 50, [REFERENCE] = 0};
    int files = read_options(argc, argv, "stpr", settings);
    if (files == 0 || files == argc) {
        fputs("usage: align_series [-s HALVINGS] [-t TOLERANCE] [-p PERCENTILE] [-r REFERENCE] FILE...\n", stderr);
        return 2;
    }
    struct series series = {.s = settings[HALVINGS], .tolerance = settings[TOLERANCE], .percentile = settings[PERCENTILE],
                            .n = (uint32_t)(argc - files), .r = settings[REFERENCE]};
    read_frames(&series, argv + files);
    if (series.s == NOT_GIVEN) {
        series.s = fitting_halvings(series.w, series.h);
    }
    int32_t *offsets = lend(2 * series.n, sizeof *offsets);
    uint32_t *pixels = lend(series.n, sizeof *pixels);
    align(&series, offsets, pixels);
    printf("%" PRIu32 " by %" PRIu32 " pixels, s = %" PRIu32 ", T = %" PRIu32 ", P = %" PRIu32 ", r = %" PRIu32 "\n",
           series.w, series.h, series.s, series.tolerance, series.percentile, series.r);
    print_frames(&series, offsets, pixels, argv + files);
    print_common_area(&series, offsets);
    free(pixels);
    free(offsets);
    free(series.rasters);
    return finish();
}
