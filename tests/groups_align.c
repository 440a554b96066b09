/* Pairs and series, in both orders and with a band: stored scenes, made frames, re-exposed brackets, ties, frames that leave out all
 * or nothing, and the documents' worked examples. */
#include "groups.h"

#include <stdio.h>
#include <stdlib.h>
#include <string.h>

/* ---- The ways to align ---- */

/* How the calls choose among equal counts, and what leaves pixels out: a tolerance, or a band, by the least move too. Every group is
 * made for each, of the same frames. */
enum { WARDS_ORDER, LEAST_MOVE, BAND, WAYS };

static const struct way {
    const char *name;
    enum call pair, series, made_pair, made_series;
    int32_t flat_plate;                  /* dx and dy of the worked example */
    uint32_t most, refusal;              /* the greatest tolerance or band, and the number of a greater one */
    void (*break_most)(struct vector *); /* takes a greater one */
    int pairs_that_tie, series_that_tie; /* the order decides so many at least */
} ways[WAYS] = {
    { "Ward's order", CALL_PAIR_WARD, CALL_SERIES_WARD, CALL_MADE_PAIR_WARD, CALL_MADE_SERIES_WARD, -7, 64, 5, break_tolerance, 200, 60 },
    { "least move", CALL_PAIR, CALL_SERIES, CALL_MADE_PAIR, CALL_MADE_SERIES, 0, 64, 5, break_tolerance, 200, 60 },
    { "band", CALL_PAIR_BAND, CALL_SERIES_BAND, CALL_MADE_PAIR_BAND, CALL_MADE_SERIES_BAND, 0, 16, 15, break_band, 100, 20 },
};

/* That of the groups in the making. */
static const struct way *way;

static bool banded(void)
{
    return way == &ways[BAND];
}

static void begin_way(const char *group)
{
    char name[100];
    snprintf(name, sizeof name, "%s, %s", group, way->name);
    begin_group(name);
}

/* The same call another way. */
static struct vector asked(struct vector v, const struct way *other)
{
    bool made = is_made(v.call);
    v.call = is_pair(v.call) ? (made ? other->made_pair : other->pair) : made ? other->made_series : other->series;
    return v;
}

/* The reference must answer two calls alike. */
static void must_agree(const struct vector *v, const struct vector *other, const char *what)
{
    struct answer a = answer_of(v), b = answer_of(other);
    must(a.refusal == b.refusal && memcmp(a.values, b.values, sizeof a.values) == 0, what);
    for (int i = 0; i < MOST_OUTPUTS; i++)
        must(!a.out[i] || memcmp(a.out[i], b.out[i], a.out_bytes[i]) == 0, what);
    free_answer(a);
    free_answer(b);
}

/* Adds the call, and gives its number. "With b=0 it equals T=0." */
static uint32_t add_way(const struct vector *v)
{
    struct vector other = asked(*v, &ways[LEAST_MOVE]);
    if (banded() && v->tolerance == 0)
        must_agree(v, &other, "a band of 0 equals the tolerance 0");
    return add(v);
}

/* Before the coarsest level nothing has been chosen. */
static void must_begin_alike(const struct vector *v, const uint32_t *numbers, const uint32_t *others)
{
    size_t pair_counts = 9 * (size_t)(v->s + 1), pairs = is_pair(v->call) ? 1 : v->n - 1;
    for (size_t at = 0; at < pairs * pair_counts; at += pair_counts)
        must(memcmp(numbers + at, others + at, 9 * sizeof *numbers) == 0, "the coarsest numbers are the same in both orders");
}

/* Whether the other order gives other offsets. */
static bool order_decides(const struct vector *v)
{
    struct vector other = asked(*v, &ways[way == &ways[WARDS_ORDER] ? LEAST_MOVE : WARDS_ORDER]);
    struct answer a = answer_of(v), b = answer_of(&other);
    bool series = is_series(v->call);
    must_begin_alike(v, a.out[series], b.out[series]);
    must_begin_alike(v, a.out[series + 1], b.out[series + 1]);
    bool decides = series ? memcmp(a.out[0], b.out[0], a.out_bytes[0]) != 0 : memcmp(a.values, b.values, sizeof a.values) != 0;
    free_answer(a);
    free_answer(b);
    return decides;
}

/* Adds the call, and tells whether the order decides. With a band this shows at 0 alone, where it equals a tolerance. */
static bool add_ordered(const struct vector *v)
{
    add_way(v);
    return (!banded() || v->tolerance == 0) && order_decides(v);
}

enum { MOST_FRAMES = 16 };

/* ---- Pair ---- */

static struct vector pair_vector(uint32_t w, uint32_t h, uint32_t s, const uint8_t *first, const uint8_t *second)
{
    struct vector v = { .call = way->pair, .w = w, .h = h, .s = s, .percentile = 50, .in = { { first, 0 }, { second, 0 } } };
    fit_lengths(&v);
    return v;
}

static struct vector bracket_pair(uint32_t w, uint32_t h, uint32_t s, const uint8_t *rasters)
{
    return pair_vector(w, h, s, rasters, rasters + (size_t)3 * w * h);
}

/* A pair at every percentile, without tolerance or band and with some. In how many of these the order decides. */
static int add_settings(uint32_t w, uint32_t h, uint32_t s, const uint8_t *rasters)
{
    int decided = 0;
    for (int p = 0; p < 3; p++)
        for (uint32_t t = 0; t < 2; t++) {
            struct vector v = bracket_pair(w, h, s, rasters);
            v.percentile = all_percentiles[p];
            v.tolerance = t ? random_below(12) : 0;
            decided += add_ordered(&v);
        }
    return decided;
}

/* Sizes odd and even, at the least side for s and above it, widths around multiples of 64. */
static void pair_sizes(void)
{
    static const uint32_t sizes[][3] = { { 4, 4, 0 },   { 5, 7, 0 },    { 1, 1, 0 },   { 64, 5, 0 },   { 8, 8, 1 },
                                         { 9, 13, 1 },  { 65, 8, 1 },   { 16, 16, 2 }, { 17, 19, 2 },  { 31, 16, 2 },
                                         { 63, 17, 2 }, { 128, 16, 2 }, { 32, 32, 3 }, { 33, 40, 3 },  { 127, 17, 2 },
                                         { 129, 16, 2 }, { 64, 64, 4 }, { 65, 67, 4 } };
    begin_way("pair: sizes and halvings");
    for (int i = 0; i < COUNT_OF(sizes); i++) {
        uint32_t w = sizes[i][0], h = sizes[i][1], s = sizes[i][2];
        uint8_t *rasters = bracket_of(w, h, 2, 1 << s);
        add_settings(w, h, s, rasters);
        free(rasters);
    }
}

static void pair_settings(void)
{
    static const uint32_t tolerances[] = { 0, 1, 2, 3, 4, 8, 16, 32, 63, 64, 65, 66, 256, 256 + 4, 0xFFFFFFFF };
    static const uint32_t bands[COUNT_OF(tolerances)] = { 0, 1, 2, 3, 4, 8, 12, 15, 16, 17, 18, 20, 64, 256 + 4, 0xFFFFFFFF };
    static const uint32_t percentiles[] = { 17, 50, 83, 0, 16, 18, 49, 51, 82, 84, 100, 256 + 50, 65536 + 17, 0xFFFFFFFF };
    begin_way(banded() ? "pair: bands and percentiles" : "pair: tolerances and percentiles");
    uint8_t *rasters = bracket_of(37, 33, 2, 4);
    for (int t = 0; t < COUNT_OF(tolerances); t++)
        for (int p = 0; p < COUNT_OF(percentiles); p++) {
            struct vector v = bracket_pair(37, 33, 2, rasters);
            v.tolerance = (banded() ? bands : tolerances)[t];
            v.percentile = percentiles[p];
            must(add_way(&v) == (v.tolerance > way->most ? way->refusal : p > 2 ? 8u : 0u), "5 or 15 is tested before 8");
        }
    for (uint32_t s = 0; s <= 10; s++) {
        struct vector v = bracket_pair(37, 33, s, rasters);
        add_way(&v);
    }
    free(rasters);
}

/* Outputs and work memory just short, just enough, and longer, in every combination. */
static void pair_lengths(void)
{
    begin_way("pair: lent lengths");
    uint8_t *rasters = bracket_of(66, 17, 2, 2);
    for (enum fit counts = SHORT; counts < FITS; counts++)
        for (enum fit compared = SHORT; compared < FITS; compared++)
            for (enum fit grey = SHORT; grey < FITS; grey++)
                for (enum fit words = SHORT; words < FITS; words++) {
                    struct vector v = bracket_pair(66, 17, 2, rasters);
                    v.out[0] = length_of(counts, v.out[0], 40);
                    v.out[1] = length_of(compared, v.out[1], 31);
                    v.grey = length_of(grey, v.grey, 99);
                    v.words = length_of(words, v.words, 7);
                    bool short_output = counts == SHORT || compared == SHORT, short_memory = grey == SHORT || words == SHORT;
                    must(add_way(&v) == (short_output ? 10 : short_memory ? 11 : 0), "either output short is 10, then work memory 11");
                }
    free(rasters);
}

/* A side one below the least for s = 1; where the size is refused already, a side that is good. */
static void break_least_side(struct vector *v)
{
    bool width = 0 < v->w && v->w <= 4096, height = 0 < v->h && v->h <= 4096;
    uint32_t which = random_below(3);
    if (width && (which != 0 || !height))
        v->w = 7;
    if (height && (which != 1 || !width))
        v->h = 7;
}

static void pair_refusals(void)
{
    const struct breaker breakers[] = {
        { 2, false, break_size },                 { 3, false, break_halvings },   { 4, false, break_least_side },
        { way->refusal, false, way->break_most }, { 8, false, break_percentile }, { 9, true, break_input },
        { 10, true, break_output },               { 11, true, break_memory },
    };
    begin_way("pair: refusals");
    add_subsets(pair_vector(8, 9, 1, noise, noise + 300), breakers, COUNT_OF(breakers), 1);
}

/* The reference must give a re-exposed bracket the very answer of the bracket: without tolerance, or with whatever band. */
static void add_re_exposed(struct vector v, struct vector other, uint32_t any)
{
    v.tolerance = other.tolerance = banded() ? any % 17 : 0;
    must_agree(&v, &other, "a re-exposed bracket has the same answer");
    must(add_way(&v) == 0 && add_way(&other) == 0, "a bracket and a re-exposed one are accepted");
}

/* n frames of R = G = B with few values, and the same frames re-exposed, each by its own curve. */
static void make_re_exposed(uint32_t w, uint32_t h, uint32_t n, uint32_t values, uint8_t *rasters, uint8_t *others)
{
    struct scene scene = random_scene(w, h);
    for (uint32_t k = 0; k < n; k++) {
        struct exposure by = { random_between(-3, 3), random_between(-3, 3), random_between(40, 90), 0, 2 };
        uint8_t curve[256];
        size_t at = (size_t)k * 3 * w * h;
        expose_grey(&scene, by, w, h, values, rasters + at);
        random_curve(values, curve);
        re_expose(rasters + at, (size_t)w * h, curve, others + at);
    }
}

static void pair_re_exposed(void)
{
    static const uint32_t sizes[][3] = { { 9, 8, 0 }, { 13, 8, 1 }, { 16, 17, 2 }, { 21, 18, 2 }, { 70, 9, 1 } };
    static uint8_t rasters[2 * 3 * 700], others[2 * 3 * 700];
    begin_way(banded() ? "pair: re-exposed, any b" : "pair: re-exposed, T = 0");
    for (int i = 0; i < COUNT_OF(sizes); i++)
        for (uint32_t values = 3; values <= 200; values *= 8) {
            uint32_t w = sizes[i][0], h = sizes[i][1], s = sizes[i][2];
            make_re_exposed(w, h, 2, values, rasters, others);
            struct vector v = bracket_pair(w, h, s, rasters), other = bracket_pair(w, h, s, others);
            v.percentile = other.percentile = one_of(all_percentiles, 3);
            add_re_exposed(v, other, 5 * (uint32_t)i + values);
        }
}

/* ---- Series ---- */

static struct vector series_vector(uint32_t w, uint32_t h, uint32_t s, uint32_t n, uint32_t r, const uint32_t *percentiles,
                                   const uint8_t *rasters)
{
    struct vector v = { .call = way->series, .w = w, .h = h, .s = s, .n = n, .r = r,
                        .in = { { percentiles, 0 }, { rasters, 0 } } };
    fit_lengths(&v);
    return v;
}

static void random_percentiles(uint32_t percentiles[MOST_FRAMES])
{
    for (int i = 0; i < MOST_FRAMES; i++)
        percentiles[i] = one_of(all_percentiles, 3);
}

/* A series with every reference, and one beyond. */
static void add_references(uint32_t w, uint32_t h, uint32_t s, uint32_t n, uint32_t tolerance)
{
    uint32_t percentiles[MOST_FRAMES];
    random_percentiles(percentiles);
    uint8_t *rasters = bracket_of(w, h, n, 1 + (int32_t)s);
    for (uint32_t r = 0; r <= n; r++) {
        struct vector v = series_vector(w, h, s, n, r, percentiles, rasters);
        v.tolerance = tolerance;
        v.out[r % MOST_OUTPUTS] += random_below(5);
        add_way(&v);
    }
    free(rasters);
}

static void series_frames(void)
{
    begin_way("series: N of 1, 2, 3, 5 and 16, every reference");
    add_references(16, 17, 2, 1, 0);
    add_references(64, 9, 1, 2, 0);
    add_references(33, 32, 3, 2, 4);
    add_references(20, 19, 2, 3, 0);
    add_references(65, 16, 2, 3, 3);
    add_references(7, 6, 0, 5, 1);
    add_references(16, 16, 2, 16, 0);
    add_references(9, 11, 1, 16, 2);
}

/* Outputs just short, just enough, and longer, in every combination. */
static void series_lengths(void)
{
    static const uint32_t percentiles[] = { 50, 17 };
    begin_way("series: lent lengths");
    uint8_t *rasters = bracket_of(18, 17, 3, 2);
    for (enum fit offsets = SHORT; offsets < FITS; offsets++)
        for (enum fit counts = SHORT; counts < FITS; counts++)
            for (enum fit compared = SHORT; compared < FITS; compared++) {
                struct vector v = series_vector(18, 17, 2, 3, 1, percentiles, rasters);
                v.out[0] = length_of(offsets, v.out[0], 5);
                v.out[1] = length_of(counts, v.out[1], 40);
                v.out[2] = length_of(compared, v.out[2], 31);
                bool short_output = offsets == SHORT || counts == SHORT || compared == SHORT;
                must(add_way(&v) == (short_output ? 10 : 0), "each output short is 10");
            }
    free(rasters);
}

static void break_frames(struct vector *v)
{
    static const uint32_t bad[] = { 0, 17, 18, 256, 65536, 0xFFFFFFFF };
    v->n = one_of(bad, COUNT_OF(bad));
}

static void break_reference(struct vector *v)
{
    uint32_t bad[] = { v->n, v->n + 1, 16, 0xFFFFFFFF };
    v->r = one_of(bad, COUNT_OF(bad));
}

/* A wrong number of percentiles, or a wrong one at some place. */
static void break_percentiles(struct vector *v)
{
    static const uint32_t wrong[3][16] = {
        { 49, 50, 50, 50, 50, 50, 50, 50, 50, 50, 50, 50, 50, 50, 50, 50 },
        { 17, 84, 50, 50, 50, 50, 50, 50, 50, 50, 50, 50, 50, 50, 50, 50 },
        { 50, 256 + 50, 50, 50, 50, 50, 50, 50, 50, 50, 50, 50, 50, 50, 50, 50 },
    };
    uint32_t which = random_below(5);
    if (which < 3)
        v->in[0].data = wrong[which];
    else if (which == 3 || v->in[0].length == 0)
        v->in[0].length += 1;
    else
        v->in[0].length -= 1;
}

static void series_refusals(void)
{
    static const uint32_t percentiles[18] = { 17, 50, 83, 17, 50, 83, 17, 50, 83, 17, 50, 83, 17, 50, 83, 17, 50, 83 };
    const struct breaker breakers[] = {
        { 2, false, break_size },                 { 3, false, break_halvings }, { 4, false, break_least_side },
        { way->refusal, false, way->break_most }, { 6, false, break_frames },   { 7, false, break_reference },
        { 8, true, break_percentiles },           { 9, true, break_input },     { 10, true, break_output },
        { 11, true, break_memory },
    };
    begin_way("series: refusals");
    add_subsets(series_vector(8, 9, 1, 3, 1, percentiles, noise), breakers, COUNT_OF(breakers), 1);
}

static void series_re_exposed(void)
{
    static const uint32_t shapes[][4] = { { 9, 8, 1, 3 }, { 17, 16, 2, 4 }, { 66, 8, 1, 2 }, { 6, 5, 0, 16 } };
    static uint8_t rasters[16 * 3 * 300], others[16 * 3 * 300];
    uint32_t percentiles[MOST_FRAMES];
    begin_way(banded() ? "series: re-exposed, any b" : "series: re-exposed, T = 0");
    for (int i = 0; i < COUNT_OF(shapes); i++)
        for (uint32_t values = 4; values <= 200; values *= 7) {
            uint32_t w = shapes[i][0], h = shapes[i][1], s = shapes[i][2], n = shapes[i][3], r = random_below(n);
            make_re_exposed(w, h, n, values, rasters, others);
            random_percentiles(percentiles);
            struct vector v = series_vector(w, h, s, n, r, percentiles, rasters);
            struct vector other = series_vector(w, h, s, n, r, percentiles, others);
            add_re_exposed(v, other, 5 * (uint32_t)i + values);
        }
}

/* ---- Ties ---- */

static uint8_t *dull_bracket(enum dull kind, uint32_t w, uint32_t h, uint32_t n)
{
    uint8_t *rasters = malloc((size_t)3 * w * h * n);
    dull_frames(kind, w, h, n, rasters);
    return rasters;
}

/* The places, as bits, of the least of nine counts. */
static uint32_t least_places(const uint32_t counts[9])
{
    uint32_t places = 0, least = UINT32_MAX;
    for (int k = 0; k < 9; k++)
        if (counts[k] <= least) {
            places = (counts[k] == least ? places : 0) | 1u << k;
            least = counts[k];
        }
    return places;
}

/* Whether these are the finest level's least counts, and the coarser level has one alone that is not (0,0)'s. */
static bool ties_at(const struct vector *v, uint32_t places)
{
    struct answer a = answer_of(v);
    const uint32_t *counts = a.out[0];
    uint32_t coarser = least_places(counts), finest = least_places(counts + 9);
    free_answer(a);
    return finest == places && (coarser & (coarser - 1)) == 0 && coarser != 1u << 4;
}

enum { TIE_SIDE = 8, TIE_BYTES = 2 * 3 * TIE_SIDE * TIE_SIDE };

/* Two frames of few values: at s = 1 the candidates of just these places tie, around a centre other than (0,0). */
static void draw_tie(uint32_t places, uint8_t rasters[TIE_BYTES])
{
    struct vector v = bracket_pair(TIE_SIDE, TIE_SIDE, 1, rasters);
    do
        for (int i = 0; i < TIE_BYTES; i++)
            rasters[i] = (uint8_t)random_below(4);
    while (!ties_at(&v, places));
}

/* A wrong order has two of the nine the wrong way round: here those two decide. */
static void ties_of_two(bool series)
{
    static const uint32_t median = 50;
    static uint8_t rasters[TIE_BYTES];
    int decided = 0;
    begin_way(series ? "series: each two of the nine tie" : "pair: each two of the nine tie");
    for (uint32_t i = 0; i < 9; i++)
        for (uint32_t k = i + 1; k < 9; k++) {
            draw_tie(1u << i | 1u << k, rasters);
            struct vector v = series ? series_vector(TIE_SIDE, TIE_SIDE, 1, 2, (i + k) % 2, &median, rasters)
                                     : bracket_pair(TIE_SIDE, TIE_SIDE, 1, rasters);
            decided += add_ordered(&v);
        }
    must(decided == 14, "the two lists of the nine have 14 pairs the other way round");
}

static void pair_ties(void)
{
    static const uint32_t sizes[][3] = { { 4, 4, 0 }, { 6, 4, 0 },   { 5, 7, 0 },   { 8, 8, 1 },   { 9, 8, 1 },
                                         { 8, 13, 1 }, { 11, 10, 1 }, { 16, 16, 2 }, { 17, 19, 2 }, { 33, 32, 3 } };
    int decided = 0;
    begin_way("pair: ties");
    for (int i = 0; i < COUNT_OF(sizes); i++)
        for (enum dull kind = DULL_FLAT; kind < DULL_KINDS; kind++) {
            uint32_t w = sizes[i][0], h = sizes[i][1], s = sizes[i][2];
            uint8_t *rasters = dull_bracket(kind, w, h, 2);
            decided += add_settings(w, h, s, rasters);
            free(rasters);
        }
    must(decided >= way->pairs_that_tie, "the order decides many of the pairs that tie");
}

static void series_ties(void)
{
    static const uint32_t shapes[][4] = { { 4, 5, 0, 16 }, { 6, 4, 0, 5 }, { 8, 8, 1, 3 }, { 9, 13, 1, 4 }, { 16, 17, 2, 3 },
                                          { 21, 16, 2, 2 } };
    uint32_t percentiles[MOST_FRAMES];
    int decided = 0;
    begin_way("series: ties");
    for (int i = 0; i < COUNT_OF(shapes); i++)
        for (enum dull kind = DULL_FLAT; kind < DULL_KINDS; kind++) {
            uint32_t w = shapes[i][0], h = shapes[i][1], s = shapes[i][2], n = shapes[i][3];
            uint8_t *rasters = dull_bracket(kind, w, h, n);
            for (uint32_t t = 0; t < 3; t++) {
                random_percentiles(percentiles);
                struct vector v = series_vector(w, h, s, n, random_below(n), percentiles, rasters);
                v.tolerance = t ? random_below(12) : 0;
                decided += add_ordered(&v);
            }
            free(rasters);
        }
    must(decided >= way->series_that_tie, "the order decides many of the series that tie");
}

/* ---- Pixels compared ---- */

enum { DARK = 0, MIDDLE = 100, BRIGHT = 200 };

/* The middle is the threshold, and left out with every tolerance and with a band of 0; dark and bright pixels are kept. A frame that
 * keeps all has one in the middle all the same: a threshold is some pixel's value. A dark edge stays dark when the frame is halved. */
static uint8_t kept_light(enum kept kind, uint32_t w, uint32_t h, uint32_t i)
{
    uint32_t half = w * h / 2, place = i * 7919 % (w * h); /* a prime: every place once, without the rhythm of rows */
    if (kind == KEPT_ALL)
        return place < half - 1 ? DARK : place < half ? MIDDLE : BRIGHT;
    return keeps(kind, w, h, i % w, i / w) ? DARK : MIDDLE;
}

/* Such frames of an even number of pixels, R = G = B, one raster after another. */
static uint8_t *kept_frames(const enum kept *kinds, uint32_t w, uint32_t h, uint32_t n)
{
    uint32_t pixels = w * h;
    uint8_t *rasters = malloc((size_t)3 * pixels * n);
    for (uint32_t i = 0; i < n * pixels; i++)
        memset(rasters + (size_t)3 * i, kept_light(kinds[i / pixels], w, h, i % pixels), 3);
    return rasters;
}

/* Without halving: the nine compared numbers, but for the two pixels in the middle. */
static void must_compare(const struct vector *v, enum kept kind, bool second)
{
    struct answer a = answer_of(v);
    const uint32_t *compared = a.out[1];
    for (int k = 0; k < 9; k++) {
        uint32_t most = compared_at(kind, second, v->w, v->h, k / 3 - 1, k % 3 - 1);
        must(compared[k] <= most && most <= compared[k] + 2, "the kept pixels with a partner are compared");
    }
    free_answer(a);
}

/* One of the frames keeps these pixels, the other all; with a wider band it keeps none, since half of it is dark, half bright. */
static void add_kept_pair(enum kept kind, bool second, uint32_t w, uint32_t h, uint32_t s, uint32_t tolerance)
{
    const enum kept kinds[] = { second ? KEPT_ALL : kind, second ? kind : KEPT_ALL };
    uint8_t *rasters = kept_frames(kinds, w, h, 2);
    struct vector v = bracket_pair(w, h, s, rasters);
    v.tolerance = tolerance;
    if (s == 0)
        must_compare(&v, banded() && tolerance > 0 ? KEPT_NONE : kind, second);
    add_way(&v);
    free(rasters);
}

static void pair_compared(void)
{
    static const uint32_t sizes[][3] = { { 8, 8, 0 }, { 65, 8, 0 }, { 9, 8, 1 }, { 16, 17, 2 } };
    begin_way("pair: pixels compared");
    for (int i = 0; i < COUNT_OF(sizes); i++)
        for (enum kept kind = KEPT_ALL; kind < KEPT_KINDS; kind++)
            for (int second = kind == KEPT_ALL; second < 2; second++)
                for (uint32_t tolerance = 0; tolerance <= way->most; tolerance += way->most)
                    add_kept_pair(kind, second, sizes[i][0], sizes[i][1], sizes[i][2], tolerance);
}

static void series_compared(void)
{
    static const uint32_t sizes[][3] = { { 8, 8, 0 }, { 65, 8, 1 }, { 16, 17, 2 } }, percentiles[] = { 50, 50, 50, 50, 50 };
    static const enum kept kinds[] = { KEPT_ALL, KEPT_LEFT, KEPT_ALL, KEPT_BOTTOM, KEPT_NONE, KEPT_ALL };
    begin_way("series: pixels compared");
    for (int i = 0; i < COUNT_OF(sizes); i++)
        for (uint32_t tolerance = 0; tolerance <= way->most; tolerance += way->most) {
            uint32_t w = sizes[i][0], h = sizes[i][1], s = sizes[i][2];
            uint8_t *rasters = kept_frames(kinds, w, h, COUNT_OF(kinds));
            struct vector v = series_vector(w, h, s, COUNT_OF(kinds), 2, percentiles, rasters);
            v.tolerance = tolerance;
            add_way(&v);
            free(rasters);
        }
}

/* ---- Ranks ---- */

enum { RANKS = 100, RANK_SIDE = 10, RANK_BYTES = 3 * RANKS, RANK_FRAMES = 4 };

/* Frames of a hundred pixels, each with another grey value, the same ranks in each frame and tones of its own. The threshold for p is
 * the p-th of them. */
static void rank_frames(uint8_t rasters[RANK_FRAMES * RANK_BYTES])
{
    uint8_t curve[256];
    for (uint32_t i = 0; i < RANK_FRAMES * RANKS; i++) {
        if (i % RANKS == 0)
            random_curve(RANKS, curve);
        memset(rasters + 3 * (size_t)i, curve[i % RANKS * 37 % RANKS], 3); /* a prime: every rank once */
    }
}

/* P−b to P+b are 2·b+1 of the hundred; at (0,0) the same ones of both frames. */
static void must_leave_out(const struct vector *v)
{
    struct answer a = answer_of(v);
    const uint32_t *counts = a.out[is_series(v->call)], *compared = a.out[is_series(v->call) + 1];
    for (uint32_t pair = 0; pair < (is_series(v->call) ? v->n - 1 : 1); pair++)
        must(counts[9 * pair + 4] == 0 && compared[9 * pair + 4] == RANKS - 1 - 2 * v->tolerance, "a band leaves out its percentiles");
    free_answer(a);
    add_way(v);
}

/* Every band at every percentile: the ends reach from 1 to 99. */
static void pair_ranks(void)
{
    static uint8_t rasters[RANK_FRAMES * RANK_BYTES];
    begin_way("pair: a pixel a percent");
    rank_frames(rasters);
    for (uint32_t b = 0; b <= way->most; b++)
        for (int p = 0; p < 3; p++) {
            struct vector v = bracket_pair(RANK_SIDE, RANK_SIDE, 0, rasters);
            v.tolerance = b;
            v.percentile = all_percentiles[p];
            must_leave_out(&v);
        }
}

static void series_ranks(void)
{
    static uint8_t rasters[RANK_FRAMES * RANK_BYTES];
    begin_way("series: a pixel a percent");
    rank_frames(rasters);
    for (uint32_t b = 0; b <= way->most; b++) {
        struct vector v = series_vector(RANK_SIDE, RANK_SIDE, 0, RANK_FRAMES, b % RANK_FRAMES, all_percentiles, rasters);
        v.tolerance = b;
        must_leave_out(&v);
    }
}

/* ---- Made frames ---- */

/* A pair of overlapping parts of the made bytes: the second begins dy rows and dx pixels later. */
static void add_made_pair(uint32_t w, uint32_t h, uint32_t s, uint32_t scene, uint32_t dx, uint32_t dy)
{
    size_t size = (size_t)3 * w * h, later = 3 * ((size_t)dy * w + dx);
    uint8_t *made = malloc(size + later);
    make_frames((struct made){ scene, w, 65536 }, size + later, made);
    struct vector v = pair_vector(w, h, s, made, made + later);
    v.call = way->made_pair;
    v.made = (struct slice){ made, size + later };
    v.made_rows = 65536;
    v.scene = scene;
    v.percentile = all_percentiles[scene % 3];
    v.tolerance = scene % 2 ? scene : 0;
    add_way(&v);
    free(made);
}

static void made_pairs(void)
{
    begin_way("made frames: pairs of s 5 to 8");
    add_made_pair(128, 128, 5, 3, 2, 1);
    add_made_pair(131, 150, 5, 4, 9, 3);
    add_made_pair(256, 256, 6, 3, 11, 6);
    add_made_pair(320, 257, 6, 0, 1, 12);
    add_made_pair(257, 300, 6, 7, 20, 0);
    add_made_pair(512, 512, 7, 0, 5, 3);
    add_made_pair(515, 513, 7, 1, 7, 4);
    add_made_pair(700, 520, 4, 2, 3, 8);
    add_made_pair(1024, 1024, 8, 2, 9, 5);
    add_made_pair(1030, 1025, 8, 3, 11, 6);
    add_made_pair(1024, 1023, 8, 3, 11, 6);
    add_made_pair(4096, 40, 3, 5, 4, 2);
    add_made_pair(40, 4096, 3, 1, 4, 2);
}

static void add_made_series(uint32_t w, uint32_t h, uint32_t s, uint32_t n, uint32_t r, uint32_t scene)
{
    static const uint32_t percentiles[] = { 50, 17, 83, 50 };
    size_t size = (size_t)3 * w * h * n;
    uint8_t *made = malloc(size);
    make_frames((struct made){ scene, w, h }, size, made);
    struct vector v = series_vector(w, h, s, n, r, percentiles, made);
    v.call = way->made_series;
    v.made = (struct slice){ made, size };
    v.made_rows = h;
    v.scene = scene;
    v.tolerance = 2;
    add_way(&v);
    free(made);
}

static void made_series(void)
{
    begin_way("made frames: series of s 5 to 7");
    add_made_series(130, 140, 5, 4, 2, 3);
    add_made_series(256, 256, 6, 3, 1, 3);
    add_made_series(321, 260, 6, 3, 0, 4);
    add_made_series(513, 512, 7, 3, 2, 0);
}

/* ---- The documents' worked examples ---- */

/* "the flat plate gives (0,0) by the new pair, (−7,−7) by the kept one" */
static void flat_example(void)
{
    static uint8_t flat[3 * 16 * 16];
    memset(flat, 77, sizeof flat);
    struct vector v = pair_vector(16, 16, 2, flat, flat);
    struct answer a = answer_of(&v);
    static const uint32_t zero[27];
    uint32_t move = (uint32_t)way->flat_plate;
    must(a.refusal == 0 && a.values[0] == move && a.values[1] == move, "the flat plate's offset");
    for (int i = 0; i < 2; i++)
        must(a.out_bytes[i] == sizeof zero && memcmp(a.out[i], zero, sizeof zero) == 0, "the flat plate: 27 counts of 0, out of 0");
    free_answer(a);
    add_way(&v);
}

static void expect_pair(uint32_t w, uint32_t h, uint32_t tolerance, uint32_t number)
{
    struct vector v = pair_vector(w, h, 2, noise, noise + 1000);
    v.tolerance = tolerance;
    must(add_way(&v) == number, "a pair of the worked examples");
}

static void expect_series(uint32_t n, uint32_t number)
{
    static uint32_t percentiles[17];
    for (int i = 0; i < 17; i++)
        percentiles[i] = 50;
    struct vector v = series_vector(4, 4, 0, n, 0, percentiles, noise);
    must(add_way(&v) == number, "a series of the worked examples");
}

/* "N=1: offset (0,0), no counts." */
static void one_frame_example(void)
{
    struct vector v = series_vector(4, 4, 0, 1, 0, NULL, noise);
    struct answer a = answer_of(&v);
    static const int32_t zero[2];
    must(v.out[1] == 0 && v.out[2] == 0 && memcmp(a.out[0], zero, sizeof zero) == 0, "N=1: offset (0,0), no counts");
    free_answer(a);
    add_way(&v);
}

static void pair_examples(void)
{
    begin_way("documents 01 and 02: worked examples");
    flat_example();
    expect_pair(16, 16, 0, 0);
    expect_pair(15, 16, 0, 4);
    expect_pair(16, 15, 0, 4);
    expect_pair(15, 15, 0, 4);
    expect_pair(16, 16, way->most, 0);
    expect_pair(16, 16, way->most + 1, way->refusal);
}

static void series_examples(void)
{
    begin_way("documents 01 and 02: worked examples");
    one_frame_example();
    expect_series(16, 0);
    expect_series(17, 6);
}

/* ---- The files ---- */

static void pair_groups_of_way(void)
{
    pair_examples();
    pair_sizes();
    pair_settings();
    pair_lengths();
    pair_refusals();
    pair_re_exposed();
    pair_ties();
    ties_of_two(false);
    pair_compared();
    made_pairs();
    if (banded())
        pair_ranks();
}

static void series_groups_of_way(void)
{
    series_examples();
    series_frames();
    series_lengths();
    series_refusals();
    series_re_exposed();
    series_ties();
    ties_of_two(true);
    series_compared();
    made_series();
    if (banded())
        series_ranks();
}

void pair_groups(uint64_t seed)
{
    for (way = ways; way < ways + WAYS; way++) {
        random_begin(seed, "pairs");
        pair_groups_of_way();
    }
}

void series_groups(uint64_t seed)
{
    for (way = ways; way < ways + WAYS; way++) {
        random_begin(seed, "series");
        series_groups_of_way();
    }
}
