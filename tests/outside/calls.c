/* The library's functions: the slices that each takes, and how it is asked. */
#include "trial.h"

#include "../scenes.h"
#include "contents.h"
#include "held.h"

#include <stdlib.h>
#include <string.h>

/* ---- Sizes ---- */

static size_t pixels(const struct numbers *n)
{
    return (size_t)n->w * n->h;
}

static size_t bitmap_words(const struct numbers *n)
{
    return ((size_t)n->w + 63) / 64 * n->h;
}

static size_t pair_counts(const struct numbers *n)
{
    return 9 * ((size_t)n->s + 1);
}

static size_t work_grey(const struct numbers *n)
{
    size_t sum = 0;
    for (uint32_t level = 0; level <= n->s; level++)
        sum += (size_t)(n->w >> level) * (n->h >> level);
    return 2 * sum;
}

/* ---- Slices ---- */

static void add_raster(struct trial *t, const char *name)
{
    const struct numbers *n = &t->made_for;
    add_slice(t, INPUT, name, 1, 3 * pixels(n))->made = make_rasters(n->w, n->h, 1);
}

static void add_grey(struct trial *t)
{
    const struct numbers *n = &t->made_for;
    add_slice(t, INPUT, "grey", 1, pixels(n))->made = make_grey(n->w, n->h);
}

static void add_bitmap(struct trial *t, const char *name)
{
    size_t words = bitmap_words(&t->made_for);
    add_slice(t, INPUT, name, sizeof(uint64_t), words)->made = make_bitmap(words);
}

static void add_result(struct trial *t, const char *name, size_t element)
{
    add_slice(t, RESULT, name, element, 1);
}

/* The counts, and beside them the compared numbers. */
static void add_counts(struct trial *t, size_t needed)
{
    add_slice(t, OUTPUT, "counts", sizeof(uint32_t), needed);
    add_slice(t, OUTPUT, "compared", sizeof(uint32_t), needed);
}

/* The memory of frames of these sizes. */
static void add_work(struct trial *t, const struct numbers *n)
{
    add_slice(t, WORK, "grey", 1, work_grey(n));
    add_slice(t, WORK, "words", sizeof(uint64_t), 6 * bitmap_words(n));
}

static void grey_slices(struct trial *t)
{
    add_raster(t, "raster");
    add_slice(t, OUTPUT, "grey", 1, pixels(&t->made_for));
}

static void halve_slices(struct trial *t)
{
    add_grey(t);
    add_slice(t, OUTPUT, "out", 1, (size_t)(t->made_for.w / 2) * (t->made_for.h / 2));
}

static void threshold_slices(struct trial *t)
{
    add_grey(t);
    add_result(t, "threshold", 1);
}

static void bitmaps_slices(struct trial *t)
{
    add_grey(t);
    add_slice(t, OUTPUT, "threshold_bits", sizeof(uint64_t), bitmap_words(&t->made_for));
    add_slice(t, OUTPUT, "exclusion_bits", sizeof(uint64_t), bitmap_words(&t->made_for));
}

static void shift_slices(struct trial *t)
{
    add_bitmap(t, "bitmap");
    add_slice(t, OUTPUT, "out", sizeof(uint64_t), bitmap_words(&t->made_for));
}

static void total_slices(struct trial *t)
{
    add_bitmap(t, "bitmap");
    add_result(t, "total", sizeof(uint32_t));
}

static void difference_slices(struct trial *t)
{
    add_bitmap(t, "threshold1");
    add_bitmap(t, "exclusion1");
    add_bitmap(t, "threshold2");
    add_bitmap(t, "exclusion2");
    add_result(t, "count", sizeof(uint32_t));
    add_result(t, "compared", sizeof(uint32_t));
}

/* Both rasters, made one after the other. */
static void add_both(struct trial *t, uint8_t *both)
{
    size_t bytes = 3 * pixels(&t->made_for);
    uint8_t *second = memory(bytes);
    memcpy(second, both + bytes, bytes);
    add_slice(t, INPUT, "first", 1, bytes)->made = both;
    add_slice(t, INPUT, "second", 1, bytes)->made = second;
}

static void pair_slices(struct trial *t)
{
    const struct numbers *n = &t->made_for;
    add_both(t, make_rasters(n->w, n->h, 2));
    add_result(t, "dx", sizeof(int32_t));
    add_result(t, "dy", sizeof(int32_t));
    add_counts(t, pair_counts(n));
    add_work(t, n);
}

static void quadrants_slices(struct trial *t)
{
    struct numbers quadrant = t->made_for;
    quadrant.w /= 2;
    quadrant.h /= 2;
    add_both(t, make_quartered(t->made_for.w, t->made_for.h));
    add_slice(t, OUTPUT, "offsets", sizeof(int32_t), 8);
    add_result(t, "turned", sizeof(bool));
    add_work(t, &quadrant);
}

/* Where 8 is wanted there are too few or too many, or one is none. */
static void add_percentiles(struct trial *t, size_t pairs)
{
    bool miscounted = t->want[8] && (pairs == 0 || random_below(2));
    size_t few = pairs > 0 ? random_below((uint32_t)pairs) : 1, many = pairs + 1 + random_below(3);
    size_t count = !miscounted ? pairs : random_below(2) ? few : many;
    add_slice(t, GIVEN, "percentiles", sizeof(uint32_t), count)->made = make_percentiles(count, t->want[8] && !miscounted);
}

static void series_slices(struct trial *t)
{
    const struct numbers *n = &t->made_for;
    size_t pairs = n->n > 0 ? n->n - 1 : 0;
    add_percentiles(t, pairs);
    add_slice(t, INPUT, "rasters", 1, 3 * pixels(n) * n->n)->made = make_rasters(n->w, n->h, n->n);
    add_slice(t, OUTPUT, "offsets", sizeof(int32_t), 2 * (size_t)n->n);
    add_counts(t, pairs * pair_counts(n));
    add_work(t, n);
}

/* ---- Slices of a live bracket ---- */

static uint8_t *copied(const void *from, size_t bytes)
{
    uint8_t *copy = memory(bytes);
    memcpy(copy, from, bytes);
    return copy;
}

/* A session's memory, or this one. The length of the numbers is looked at first, but by a start. */
static void add_held(struct trial *t, enum role role, bool first, uint8_t *numbers, uint8_t *newest)
{
    struct slice *held = add_slice(t, role, "held", sizeof(int32_t), HELD_NUMBERS);
    size_t area = pixels(&t->made_for);
    held->first = first;
    held->made = t->held ? copied(t->held->numbers, HELD_NUMBERS * sizeof(int32_t)) : numbers;
    add_slice(t, role, "newest", 1, area)->made = t->held ? copied(t->held->newest, area) : newest;
}

/* Whatever the memory holds. */
static void live_start_slices(struct trial *t)
{
    add_held(t, HELD, false, NULL, NULL);
}

static uint8_t *grey_of(const struct numbers *n, const uint8_t *raster)
{
    uint8_t *grey = memory(pixels(n));
    ref_grey(n->w, n->h, raster, 3 * pixels(n), grey, pixels(n));
    return grey;
}

/* The newest frame and the new one show the same scene; where none is held, there is the grey of one all the same. */
static void live_add_slices(struct trial *t)
{
    const struct numbers *n = &t->made_for;
    size_t bytes = 3 * pixels(n);
    if (t->held) {
        add_held(t, HELD, true, NULL, NULL);
        add_slice(t, INPUT, "raster", 1, bytes)->made = copied(t->held->raster, bytes);
    } else {
        uint8_t *both = make_rasters(n->w, n->h, 2);
        uint32_t frames = t->want[6] ? MAX_FRAMES : random_below(2) ? n->n - 1 : random_below(MAX_FRAMES);
        add_held(t, HELD, true, make_held(n, frames, t->want[16]), grey_of(n, both));
        add_slice(t, INPUT, "raster", 1, bytes)->made = copied(both + bytes, bytes);
        free(both);
    }
    add_work(t, n);
}

/* Where 16 is wanted, something is damaged or nothing is held. */
static void live_drop_slices(struct trial *t)
{
    bool empty = t->want[16] && random_below(3) == 0;
    uint32_t frames = empty ? 0 : 1 + random_below(MAX_FRAMES);
    add_held(t, HELD, true, t->held ? NULL : make_held(&t->made_for, frames, t->want[16] && !empty), NULL);
}

/* How many frames a session's memory tells of. */
static uint32_t frames_held(const struct held *held)
{
    uint32_t frames = (uint32_t)held->numbers[HELD_FRAMES];
    return frames <= MAX_FRAMES ? frames : 0;
}

/* Where 10 is wanted, there is something to tell. */
static void live_offsets_slices(struct trial *t)
{
    uint32_t frames = t->held ? frames_held(t->held) : t->want[10] ? 1 + random_below(MAX_FRAMES) : random_below(MAX_FRAMES + 1);
    add_held(t, INPUT, true, t->held ? NULL : make_held(&t->made_for, frames, t->want[16]), NULL);
    add_slice(t, OUTPUT, "offsets", sizeof(int32_t), 2 * (size_t)frames);
    add_result(t, "n", sizeof(uint32_t));
}

/* ---- Slices of files and views ---- */

static void add_file(struct trial *t)
{
    size_t length;
    uint8_t *file = make_file(&t->made_for, t->correct_file, &length);
    add_slice(t, GIVEN, "file", 1, length)->made = file;
}

static void p6_size_slices(struct trial *t)
{
    add_file(t);
    add_result(t, "w", sizeof(uint32_t));
    add_result(t, "h", sizeof(uint32_t));
}

static void p6_raster_slices(struct trial *t)
{
    add_file(t);
    add_result(t, "start", sizeof(size_t));
    add_result(t, "length", sizeof(size_t));
}

static void p6_write_slices(struct trial *t)
{
    add_raster(t, "raster");
    add_slice(t, OUTPUT, "out", 1, file_bytes(t->made_for.w, t->made_for.h));
    add_result(t, "written", sizeof(size_t));
}

static void common_area_slices(struct trial *t)
{
    static const char *const sides[] = { "left", "right", "top", "bottom" };
    uint32_t n = t->made_for.n;
    add_slice(t, INPUT, "offsets", sizeof(int32_t), 2 * (size_t)n)->made = make_offsets(t, n);
    for (int i = 0; i < 4; i++)
        add_result(t, sides[i], sizeof(uint32_t));
}

static void moved_slices(struct trial *t)
{
    add_raster(t, "raster");
    add_slice(t, OUTPUT, "out", 1, 3 * pixels(&t->made_for));
}

static void blink_row_slices(struct trial *t)
{
    add_raster(t, "first_raster");
    add_raster(t, "second_raster");
    add_result(t, "start", sizeof(size_t));
    add_result(t, "length", sizeof(size_t));
}

static void needed_slices(struct trial *t)
{
    add_result(t, "needed", sizeof(size_t));
}

/* ---- Asking ---- */

#define ASK(function) static uint32_t function(const struct library *l, const struct numbers *n, const struct lent *a)
#define SLICE(i) a[i].at, a[i].length

ASK(ask_grey)
{
    return l->grey(n->w, n->h, SLICE(0), SLICE(1));
}

ASK(ask_halve)
{
    return l->halve(n->w, n->h, SLICE(0), SLICE(1));
}

ASK(ask_threshold)
{
    return l->threshold(n->w, n->h, n->percentile, SLICE(0), a[1].at);
}

ASK(ask_bitmaps)
{
    return l->bitmaps(n->w, n->h, n->threshold, n->tolerance, SLICE(0), SLICE(1), SLICE(2));
}

ASK(ask_shift)
{
    return l->shift(n->w, n->h, n->dx, n->dy, SLICE(0), SLICE(1));
}

ASK(ask_total)
{
    return l->total(n->w, n->h, SLICE(0), a[1].at);
}

ASK(ask_difference)
{
    return l->difference(n->w, n->h, n->dx, n->dy, SLICE(0), SLICE(1), SLICE(2), SLICE(3), a[4].at, a[5].at);
}

/* `left_out` is the tolerance or the band. */
static uint32_t ask_pair_of(__typeof__(mtb_pair) *pair, uint32_t left_out, const struct numbers *n, const struct lent *a)
{
    return pair(n->w, n->h, n->s, left_out, n->percentile, SLICE(0), SLICE(1), a[2].at, a[3].at, SLICE(4), SLICE(5), SLICE(6), SLICE(7));
}

ASK(ask_pair)
{
    return ask_pair_of(l->pair, n->tolerance, n, a);
}

ASK(ask_pair_ward)
{
    return ask_pair_of(l->pair_ward, n->tolerance, n, a);
}

ASK(ask_pair_band)
{
    return ask_pair_of(l->pair_band, n->band, n, a);
}

static uint32_t ask_series_of(__typeof__(mtb_series) *series, uint32_t left_out, const struct numbers *n, const struct lent *a)
{
    return series(n->w, n->h, n->s, left_out, n->n, n->r, SLICE(0), SLICE(1), SLICE(2), SLICE(3), SLICE(4), SLICE(5), SLICE(6));
}

ASK(ask_series)
{
    return ask_series_of(l->series, n->tolerance, n, a);
}

ASK(ask_series_ward)
{
    return ask_series_of(l->series_ward, n->tolerance, n, a);
}

ASK(ask_series_band)
{
    return ask_series_of(l->series_band, n->band, n, a);
}

ASK(ask_quadrants)
{
    return l->quadrants(n->w, n->h, n->s, n->tolerance, n->percentile, SLICE(0), SLICE(1), SLICE(2), a[3].at, SLICE(4), SLICE(5));
}

ASK(ask_live_start)
{
    return l->live_start(n->w, n->h, n->s, n->tolerance, n->percentile, SLICE(0), SLICE(1));
}

ASK(ask_live_add)
{
    (void)n;
    return l->live_add(SLICE(0), SLICE(1), SLICE(2), SLICE(3), SLICE(4));
}

ASK(ask_live_drop)
{
    (void)n;
    return l->live_drop(SLICE(0), SLICE(1));
}

ASK(ask_live_offsets)
{
    (void)n;
    return l->live_offsets(SLICE(0), SLICE(1), SLICE(2), a[3].at);
}

ASK(ask_p6_size)
{
    (void)n;
    return l->p6_size(SLICE(0), a[1].at, a[2].at);
}

ASK(ask_p6_raster)
{
    (void)n;
    return l->p6_raster(SLICE(0), a[1].at, a[2].at);
}

ASK(ask_p6_write)
{
    return l->p6_write(n->w, n->h, SLICE(0), SLICE(1), a[2].at);
}

ASK(ask_common_area)
{
    return l->common_area(n->w, n->h, n->n, SLICE(0), a[1].at, a[2].at, a[3].at, a[4].at);
}

ASK(ask_moved)
{
    return l->moved(n->w, n->h, n->dx, n->dy, SLICE(0), SLICE(1));
}

ASK(ask_blink_row)
{
    return l->blink_row(n->w, n->h, n->y, n->second, SLICE(0), SLICE(1), a[2].at, a[3].at);
}

ASK(ask_grey_needed)
{
    *(size_t *)a[0].at = l->grey_needed(n->w, n->h, n->s);
    return 0;
}

ASK(ask_words_needed)
{
    *(size_t *)a[0].at = l->words_needed(n->w, n->h, n->s);
    return 0;
}

/* ---- The table ---- */

const struct call calls[] = {
    { "mtb_grey", WANTED, grey_slices, ask_grey, { 2, 9, 10 } },
    { "mtb_halve", WANTED, halve_slices, ask_halve, { 2, 4, 9, 10 } },
    { "mtb_threshold", WANTED, threshold_slices, ask_threshold, { 2, 8, 9 } },
    { "mtb_bitmaps", WANTED, bitmaps_slices, ask_bitmaps, { 2, 5, 9, 10 } },
    { "mtb_shift", WANTED, shift_slices, ask_shift, { 2, 9, 10 } },
    { "mtb_total", WANTED, total_slices, ask_total, { 2, 9 } },
    { "mtb_difference", WANTED, difference_slices, ask_difference, { 2, 9 } },
    { "mtb_pair", WANTED, pair_slices, ask_pair, { 2, 3, 4, 5, 8, 9, 10, 11 } },
    { "mtb_series", WANTED, series_slices, ask_series, { 2, 3, 4, 5, 6, 7, 8, 9, 10, 11 } },
    { "mtb_pair_ward", WANTED, pair_slices, ask_pair_ward, { 2, 3, 4, 5, 8, 9, 10, 11 } },
    { "mtb_series_ward", WANTED, series_slices, ask_series_ward, { 2, 3, 4, 5, 6, 7, 8, 9, 10, 11 } },
    { "mtb_pair_band", WANTED, pair_slices, ask_pair_band, { 2, 3, 4, 15, 8, 9, 10, 11 } },
    { "mtb_series_band", WANTED, series_slices, ask_series_band, { 2, 3, 4, 15, 6, 7, 8, 9, 10, 11 } },
    { "mtb_quadrants", WANTED, quadrants_slices, ask_quadrants, { 2, 3, 4, 5, 8, 9, 10, 11 } },
    { "mtb_live_start", WANTED, live_start_slices, ask_live_start, { 2, 3, 4, 5, 8, 9 } },
    { "mtb_live_add", WANTED, live_add_slices, ask_live_add, { HELD_LENGTH, 16, 6, 9, 11 } },
    { "mtb_live_drop", WANTED, live_drop_slices, ask_live_drop, { HELD_LENGTH, 16, 9 } },
    { "mtb_live_offsets", WANTED, live_offsets_slices, ask_live_offsets, { HELD_LENGTH, 16, 9, 10 } },
    { "mtb_p6_size", CHANCE, p6_size_slices, ask_p6_size, { 1, 2, 9 } },
    { "mtb_p6_raster", CHANCE, p6_raster_slices, ask_p6_raster, { 1, 2, 9 } },
    { "mtb_p6_write", WANTED, p6_write_slices, ask_p6_write, { 2, 9, 10 } },
    { "mtb_common_area", WANTED, common_area_slices, ask_common_area, { 2, 6, 9, 12, 13 } },
    { "mtb_moved", WANTED, moved_slices, ask_moved, { 2, 9, 10 } },
    { "mtb_blink_row", WANTED, blink_row_slices, ask_blink_row, { 2, 9, 14 } },
    { "mtb_grey_needed", UNTOLD, needed_slices, ask_grey_needed, { 2, 3, 4 } },
    { "mtb_words_needed", UNTOLD, needed_slices, ask_words_needed, { 2, 3, 4 } },
};

const int call_count = sizeof calls / sizeof *calls;

const struct call *live_call(enum live which)
{
    const struct call *first = calls;
    while (first->ask != ask_live_start)
        first++;
    return first + which;
}

bool quartered(const struct call *call)
{
    return call->slices == quadrants_slices;
}
