/* Grey conversion, halving, threshold; bitmaps, shift, total, difference. */
#include "groups.h"

#include <string.h>

static const uint32_t widths[] = { 1, 2, 3, 31, 63, 64, 65, 100, 127, 128, 129, 191, 192, 193 };
static const uint32_t move_widths[] = { 1, 5, 63, 64, 65, 127, 128, 130, 200 };
static const uint32_t percentiles[] = { 17, 50, 83 };

/* ---- Grey ---- */

static struct vector grey_vector(uint32_t w, uint32_t h, const uint8_t *raster)
{
    struct vector v = { .call = CALL_GREY, .w = w, .h = h, .in = { { raster, 0 } } };
    fit_lengths(&v);
    return v;
}

/* Every mixture of the darkest, middle and brightest values. */
static void add_extreme_colours(void)
{
    static const uint8_t values[8] = { 0, 1, 2, 127, 128, 253, 254, 255 };
    uint8_t raster[3 * 512];
    for (int i = 0; i < 512; i++) {
        raster[3 * i] = values[i / 64];
        raster[3 * i + 1] = values[i / 8 % 8];
        raster[3 * i + 2] = values[i % 8];
    }
    struct vector v = grey_vector(32, 16, raster);
    add(&v);
}

static void grey_groups(void)
{
    begin_group("grey: sizes");
    add_extreme_colours();
    for (int i = 0; i < COUNT_OF(widths); i++)
        for (uint32_t h = 1; h <= 5; h++) {
            struct vector v = grey_vector(widths[i], h, noise + random_below(4000));
            v.out[0] += h == 5 ? random_below(70) : 0;
            add(&v);
        }
    struct vector wide = grey_vector(4096, 1, noise), tall = grey_vector(1, 4096, noise);
    add(&wide);
    add(&tall);
    begin_group("grey: refusals");
    static const struct breaker breakers[] = { { 2, false, break_size }, { 9, true, break_input }, { 10, true, break_output } };
    add_subsets(grey_vector(7, 5, noise), breakers, COUNT_OF(breakers), 8);
}

/* ---- Halving ---- */

static struct vector halve_vector(uint32_t w, uint32_t h, const uint8_t *grey)
{
    struct vector v = { .call = CALL_HALVE, .w = w, .h = h, .in = { { grey, 0 } } };
    fit_lengths(&v);
    return v;
}

static bool good_side(uint32_t side)
{
    return 0 < side && side <= 4096;
}

/* A side of 1; a side that is refused already stays so. */
static void break_side(struct vector *v)
{
    bool width = good_side(v->w), height = good_side(v->h);
    uint32_t which = random_below(3);
    if (width && (which != 0 || !height))
        v->w = 1;
    if (height && (which != 1 || !width))
        v->h = 1;
}

static void halve_groups(void)
{
    begin_group("halving: sizes");
    for (int i = 1; i < COUNT_OF(widths); i++)
        for (uint32_t h = 2; h <= 7; h++) {
            const uint8_t *grey = h % 2 ? ties : noise;
            struct vector v = halve_vector(widths[i], h, grey + random_below(4000));
            v.out[0] += h > 5 ? random_below(70) : 0;
            add(&v);
        }
    struct vector wide = halve_vector(4095, 3, noise), tall = halve_vector(3, 4096, noise);
    add(&wide);
    add(&tall);
    begin_group("halving: refusals");
    static const struct breaker breakers[] = { { 2, false, break_size },
                                               { 4, false, break_side },
                                               { 9, true, break_input },
                                               { 10, true, break_output } };
    add_subsets(halve_vector(7, 5, noise), breakers, COUNT_OF(breakers), 5);
}

/* ---- Threshold ---- */

static struct vector threshold_vector(uint32_t w, uint32_t h, uint32_t percentile, const uint8_t *grey)
{
    struct vector v = { .call = CALL_THRESHOLD, .w = w, .h = h, .percentile = percentile, .in = { { grey, 0 } } };
    fit_lengths(&v);
    return v;
}

static void add_thresholds(uint32_t w, uint32_t h, const uint8_t *grey)
{
    for (int p = 0; p < COUNT_OF(percentiles); p++) {
        struct vector v = threshold_vector(w, h, percentiles[p], grey);
        add(&v);
    }
}

/* Dark pixels just below, at and above a percentile of w·h, then bright ones. */
static void add_edges(uint32_t w, uint32_t h, uint8_t dark, uint8_t bright)
{
    uint8_t grey[256];
    for (int p = 0; p < COUNT_OF(percentiles); p++)
        for (uint32_t off = 0; off < 4; off++) {
            uint32_t darks = w * h * percentiles[p] / 100 + off - 1;
            for (uint32_t i = 0; i < w * h; i++)
                grey[i] = i * 7 % (w * h) < darks ? dark : bright;
            add_thresholds(w, h, grey);
        }
}

static void threshold_groups(void)
{
    begin_group("threshold: sizes");
    for (int i = 0; i < COUNT_OF(widths); i++)
        for (uint32_t h = 1; h <= 3; h++)
            add_thresholds(widths[i], h, (h == 2 ? ties : noise) + random_below(4000));
    begin_group("threshold: at the percentile");
    add_edges(10, 10, 40, 41);
    add_edges(10, 20, 0, 255);
    add_edges(9, 13, 254, 255);
    begin_group("threshold: refusals");
    static const struct breaker breakers[] = {
        { 2, false, break_size }, { 8, false, break_percentile }, { 9, true, break_input }
    };
    add_subsets(threshold_vector(7, 5, 83, noise), breakers, COUNT_OF(breakers), 10);
}

void frame_groups(uint64_t seed)
{
    random_begin(seed, "frames");
    keep_noise();
    grey_groups();
    halve_groups();
    threshold_groups();
}

/* ---- Bitmaps ---- */

static struct vector bitmaps_vector(uint32_t w, uint32_t h, uint32_t threshold, uint32_t tolerance, const uint8_t *grey)
{
    struct vector v = { .call = CALL_BITMAPS, .w = w,  .h = h, .percentile = threshold, .tolerance = tolerance,
                        .in = { { grey, 0 } } };
    fit_lengths(&v);
    return v;
}

static void pack_groups(void)
{
    static const uint32_t levels[][2] = { { 0, 0 },  { 255, 0 },  { 128, 0 },  { 128, 1 }, { 128, 64 },
                                          { 10, 64 }, { 250, 64 }, { 191, 63 }, { 2, 1 } };
    begin_group("bitmaps: widths, thresholds, tolerances");
    for (int i = 0; i < COUNT_OF(widths); i++)
        for (int k = 0; k < COUNT_OF(levels); k++) {
            const uint8_t *grey = k == COUNT_OF(levels) - 1 ? ties : noise;
            struct vector v = bitmaps_vector(widths[i], 2 + k % 2, levels[k][0], levels[k][1], grey + random_below(1000));
            v.out[k % 2] += (size_t)(k / 3);
            add(&v);
        }
    begin_group("bitmaps: refusals");
    static const struct breaker breakers[] = { { 2, false, break_size },
                                               { 5, false, break_tolerance },
                                               { 9, true, break_input },
                                               { 10, true, break_output } };
    add_subsets(bitmaps_vector(67, 3, 100, 64, noise), breakers, COUNT_OF(breakers), 5);
}

/* ---- Shift ---- */

static struct vector shift_vector(uint32_t w, uint32_t h, int32_t dx, int32_t dy)
{
    struct vector v = { .call = CALL_SHIFT, .w = w, .h = h, .dx = dx, .dy = dy,
                        .in = { { noise_words + random_below(200), 0 } } };
    fit_lengths(&v);
    return v;
}

static void add_shifts(uint32_t w, uint32_t h)
{
    for (int k = 0; k < MOVES; k++) {
        struct vector along = shift_vector(w, h, side_move(w, k), side_move(h, (int)random_below(5)));
        struct vector across = shift_vector(w, h, side_move(w, (int)random_below(MOVES)), side_move(h, k));
        across.out[0] += (size_t)(k % 3);
        add(&along);
        add(&across);
    }
}

static void shift_groups(void)
{
    begin_group("shift: widths and moves");
    for (int i = 0; i < COUNT_OF(move_widths); i++)
        add_shifts(move_widths[i], 3);
    begin_group("shift: refusals");
    static const struct breaker breakers[] = { { 2, false, break_size }, { 9, true, break_input }, { 10, true, break_output } };
    add_subsets(shift_vector(67, 3, 1, -1), breakers, COUNT_OF(breakers), 8);
}

/* ---- Total ---- */

static struct vector total_vector(uint32_t w, uint32_t h, const uint64_t *bitmap)
{
    struct vector v = { .call = CALL_TOTAL, .w = w, .h = h, .in = { { bitmap, 0 } } };
    fit_lengths(&v);
    return v;
}

static void total_groups(void)
{
    static uint64_t ones[64], zeros[64];
    begin_group("total: sizes");
    for (int i = 0; i < 64; i++)
        ones[i] = UINT64_MAX;
    for (int i = 0; i < COUNT_OF(widths); i++) {
        struct vector random = total_vector(widths[i], 1 + (uint32_t)i % 7, noise_words + random_below(200));
        struct vector full = total_vector(widths[i], 3, ones), empty = total_vector(widths[i], 3, zeros);
        add(&random);
        add(&full);
        add(&empty);
    }
    begin_group("total: refusals");
    static const struct breaker breakers[] = { { 2, false, break_size }, { 9, true, break_input } };
    add_subsets(total_vector(67, 3, noise_words), breakers, COUNT_OF(breakers), 8);
}

/* ---- Difference ---- */

static struct vector difference_vector(uint32_t w, uint32_t h, int32_t dx, int32_t dy)
{
    struct vector v = { .call = CALL_DIFFERENCE, .w = w, .h = h, .dx = dx, .dy = dy };
    for (int i = 0; i < 4; i++)
        v.in[i].data = noise_words + random_below(200);
    fit_lengths(&v);
    return v;
}

static void difference_groups(void)
{
    begin_group("difference: widths and moves");
    for (int i = 0; i < COUNT_OF(move_widths); i++)
        for (int k = 0; k < MOVES; k++) {
            uint32_t w = move_widths[i], h = 1 + (uint32_t)k % 9;
            struct vector v = difference_vector(w, h, side_move(w, k), side_move(h, (int)random_below(5)));
            add(&v);
            v = difference_vector(w, h, side_move(w, (int)random_below(5)), side_move(h, k));
            add(&v);
        }
    begin_group("difference: refusals");
    static const struct breaker breakers[] = { { 2, false, break_size }, { 9, true, break_input } };
    add_subsets(difference_vector(67, 3, 2, 1), breakers, COUNT_OF(breakers), 16);
}

enum { KEPT_ROWS = 4, KEPT_WORDS = 3 * KEPT_ROWS };

/* An exclusion bitmap. All its bits past the width are 1: they have to be read as 0. */
static void fill_kept(enum kept kind, uint32_t w, uint64_t bitmap[KEPT_WORDS])
{
    uint32_t words = (w + 63) / 64;
    memset(bitmap, 0, KEPT_WORDS * sizeof *bitmap);
    for (uint32_t y = 0; y < KEPT_ROWS; y++)
        for (uint32_t x = 0; x < 64 * words; x++)
            if (x >= w || keeps(kind, w, KEPT_ROWS, x, y))
                bitmap[y * words + x / 64] |= (uint64_t)1 << x % 64;
}

/* One frame's bitmap keeps pixels of this kind, the other's all. In half of the cases all threshold bits are unequal. */
static void add_kept(enum kept kind, bool second, uint32_t w, int32_t dx, int32_t dy)
{
    static uint64_t dark[KEPT_WORDS], bright[KEPT_WORDS], some[KEPT_WORDS], all[KEPT_WORDS];
    struct vector v = difference_vector(w, KEPT_ROWS, dx, dy);
    bool unequal = random_below(2);
    memset(bright, 0xFF, sizeof bright);
    fill_kept(kind, w, some);
    fill_kept(KEPT_ALL, w, all);
    v.in[1].data = second ? all : some;
    v.in[3].data = second ? some : all;
    if (unequal) {
        v.in[0].data = bright;
        v.in[2].data = dark;
    }
    struct answer a = answer_of(&v);
    must(a.values[1] == compared_at(kind, second, w, KEPT_ROWS, dx, dy), "the kept pixels with a partner are compared");
    must(!unequal || a.values[0] == a.values[1], "all of them differ where all threshold bits are unequal");
    free_answer(a);
    add(&v);
}

static void compared_group(void)
{
    static const uint32_t kept_widths[] = { 5, 64, 65, 130 };
    begin_group("difference: pixels compared");
    for (int i = 0; i < COUNT_OF(kept_widths); i++) {
        int32_t w = (int32_t)kept_widths[i], h = KEPT_ROWS;
        const int32_t moves[][2] = { { 0, 0 },     { 1, 0 }, { -1, 0 },        { 0, 1 },         { 0, -1 }, { w - 1, 1 - h },
                                     { 1 - w, 2 }, { w, 0 }, { INT32_MIN, 0 }, { 0, INT32_MAX }, { 1, -h }, { 63, 1 },
                                     { -64, -1 } };
        for (int m = 0; m < COUNT_OF(moves); m++)
            for (enum kept kind = KEPT_ALL; kind < KEPT_KINDS; kind++)
                for (int second = kind == KEPT_ALL; second < 2; second++)
                    add_kept(kind, second, kept_widths[i], moves[m][0], moves[m][1]);
    }
}

/* ---- Document 01's worked examples ---- */

/* "Shift by w or more, or by the lowest signed number: all 0." */
static void shift_example(int32_t dx, int32_t dy)
{
    static const uint64_t zero[6];
    struct vector v = { .call = CALL_SHIFT, .w = 70, .h = 3, .dx = dx, .dy = dy, .in = { { noise_words, 0 } } };
    fit_lengths(&v);
    struct answer a = answer_of(&v);
    must(a.refusal == 0 && memcmp(a.out[0], zero, sizeof zero) == 0, "shift by w or more: all 0");
    free_answer(a);
    add(&v);
}

static void shift_examples(void)
{
    begin_group("document 01: worked examples that are not proved");
    shift_example(70, 0);
    shift_example(-70, 0);
    shift_example(71, 1);
    shift_example(INT32_MAX, 0);
    shift_example(INT32_MIN, 0);
    shift_example(0, INT32_MIN);
    shift_example(0, 3);
}

void bitmap_groups(uint64_t seed)
{
    random_begin(seed, "bitmaps");
    keep_noise();
    keep_bytes(noise_words, sizeof noise_words);
    shift_examples();
    pack_groups();
    shift_groups();
    total_groups();
    difference_groups();
    compared_group();
}
