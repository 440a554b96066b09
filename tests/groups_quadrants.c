/* Quadrants: refusals and lent lengths, frames that slide, that turn, whose quadrants slide each for itself, and frames on which a
 * call that is nearly right gives another answer. */
#include "groups.h"

#include "reference.h"

#include <stdlib.h>
#include <string.h>

enum { QUADRANTS = 4, OFFSETS = 2 * QUADRANTS, MOST_COUNTS = 81 };

/* A pair of rasters, one after the other. */
static struct vector quadrants_vector(uint32_t w, uint32_t h, uint32_t s, const uint8_t *rasters)
{
    struct vector v = { .call = CALL_QUADRANTS, .w = w, .h = h, .s = s, .percentile = 50,
                        .in = { { rasters, 0 }, { rasters + (size_t)3 * w * h, 0 } } };
    fit_lengths(&v);
    return v;
}

/* ---- Quadrants as pairs ---- */

/* Slips that give other quadrants, or other offsets of the right ones. */
enum slip { NO_SLIP, MIDDLE_COLUMN, MIDDLE_ROW, FLOORED_LEFT, FLOORED_TOP, WARDS_ORDER, FRAME_THRESHOLD, SLIPS };

struct part {
    uint32_t left, top, w, h;
};

/* Quadrant q of a frame; with the middle column or row taken in, or begun at floor(w/2) or floor(h/2). */
static struct part part_of(uint32_t w, uint32_t h, int q, enum slip slip)
{
    struct part part = { 0, 0, (w + (slip == MIDDLE_COLUMN)) / 2, (h + (slip == MIDDLE_ROW)) / 2 };
    if (q % 2 == 1)
        part.left = slip == FLOORED_LEFT ? w / 2 : w - part.w;
    if (q >= 2)
        part.top = slip == FLOORED_TOP ? h / 2 : h - part.h;
    return part;
}

static const uint8_t *part_row(const uint8_t *raster, uint32_t w, struct part part, uint32_t y)
{
    return raster + 3 * ((size_t)(part.top + y) * w + part.left);
}

static uint8_t *crop(const uint8_t *raster, uint32_t w, struct part part)
{
    size_t row = 3 * (size_t)part.w;
    uint8_t *cropped = malloc(row * part.h);
    for (uint32_t y = 0; y < part.h; y++)
        memcpy(cropped + y * row, part_row(raster, w, part, y), row);
    return cropped;
}

/* A pair's offset. */
static void align_parts(__typeof__(ref_pair) *pair, const struct vector *v, struct part part, const uint8_t *first,
                        const uint8_t *second, int32_t offset[2])
{
    uint32_t counts[MOST_COUNTS], compared[MOST_COUNTS];
    size_t bytes = (size_t)3 * part.w * part.h;
    uint32_t number = pair(part.w, part.h, v->s, v->tolerance, v->percentile, first, bytes, second, bytes, &offset[0], &offset[1],
                           counts, MOST_COUNTS, compared, MOST_COUNTS, NULL, SIZE_MAX, NULL, SIZE_MAX);
    must(number == 0, "a quadrant is accepted as a pair");
}

enum { MOST_PIXELS = 128 * 128 };

/* Bitmaps of a part by the threshold of the frame, without halving. */
static void frame_bitmaps(const struct vector *v, int input, struct part part, const uint8_t *cropped, uint64_t *thresholds,
                          uint64_t *exclusions)
{
    static uint8_t grey[MOST_PIXELS];
    size_t frame = (size_t)v->w * v->h, pixels = (size_t)part.w * part.h;
    uint8_t threshold = 0;
    ref_grey(v->w, v->h, v->in[input].data, 3 * frame, grey, frame);
    ref_threshold(v->w, v->h, v->percentile, grey, frame, &threshold);
    ref_grey(part.w, part.h, cropped, 3 * pixels, grey, pixels);
    ref_bitmaps(part.w, part.h, threshold, v->tolerance, grey, pixels, thresholds, MOST_PIXELS, exclusions, MOST_PIXELS);
}

/* The least move among the least counts, without halving. */
static void align_by_frame(const struct vector *v, struct part part, const uint8_t *first, const uint8_t *second, int32_t offset[2])
{
    static const int32_t moves[9][2] = { { 0, 0 },   { -1, 0 }, { 1, 0 },  { 0, -1 }, { 0, 1 },
                                         { -1, -1 }, { -1, 1 }, { 1, -1 }, { 1, 1 } };
    static uint64_t bits[4][MOST_PIXELS];
    size_t words = (size_t)((part.w + 63) / 64) * part.h;
    uint32_t least = UINT32_MAX, count = 0, compared;
    frame_bitmaps(v, 0, part, first, bits[0], bits[1]);
    frame_bitmaps(v, 1, part, second, bits[2], bits[3]);
    for (int k = 0; k < 9; k++) {
        ref_difference(part.w, part.h, moves[k][0], moves[k][1], bits[0], words, bits[1], words, bits[2], words, bits[3], words,
                       &count, &compared);
        if (count < least) {
            memcpy(offset, moves[k], sizeof moves[k]);
            least = count;
        }
    }
}

/* The eight numbers with a slip. */
static void slipped(const struct vector *v, enum slip slip, int32_t offsets[OFFSETS])
{
    for (int q = 0; q < QUADRANTS; q++) {
        struct part part = part_of(v->w, v->h, q, slip);
        uint8_t *first = crop(v->in[0].data, v->w, part), *second = crop(v->in[1].data, v->w, part);
        if (slip == FRAME_THRESHOLD)
            align_by_frame(v, part, first, second, offsets + 2 * q);
        else
            align_parts(slip == WARDS_ORDER ? ref_pair_ward : ref_pair, v, part, first, second, offsets + 2 * q);
        free(first);
        free(second);
    }
}

/* ---- When two are apart ---- */

/* Wrong ways to judge: which of the six pairs of quadrants are looked at, in this order: both upper, both left, upper left and
 * lower right, upper right and lower left, both right, both lower; which axes; how far apart is turned; or both axes together. */
enum judge { NEIGHBOURS, DIAGONALS, AGAINST_FIRST, IN_TURN, ACROSS, DOWN, FROM_1, FROM_3, SUMMED, JUDGES };

static const int two_of[6][2] = { { 0, 1 }, { 0, 2 }, { 0, 3 }, { 1, 2 }, { 1, 3 }, { 2, 3 } };

static const struct {
    bool looks[6], axes[2];
    int32_t least;
} judges[JUDGES] = {
    [NEIGHBOURS] = { { 1, 1, 0, 0, 1, 1 }, { 1, 1 }, 2 },    [DIAGONALS] = { { 0, 0, 1, 1, 0, 0 }, { 1, 1 }, 2 },
    [AGAINST_FIRST] = { { 1, 1, 1, 0, 0, 0 }, { 1, 1 }, 2 }, [IN_TURN] = { { 1, 0, 0, 1, 0, 1 }, { 1, 1 }, 2 },
    [ACROSS] = { { 1, 1, 1, 1, 1, 1 }, { 1, 0 }, 2 },        [DOWN] = { { 1, 1, 1, 1, 1, 1 }, { 0, 1 }, 2 },
    [FROM_1] = { { 1, 1, 1, 1, 1, 1 }, { 1, 1 }, 1 },        [FROM_3] = { { 1, 1, 1, 1, 1, 1 }, { 1, 1 }, 3 },
    [SUMMED] = { { 1, 1, 1, 1, 1, 1 }, { 1, 1 }, 2 },
};

static int32_t apart(const int32_t *offsets, int pair, int axis)
{
    return abs(offsets[2 * two_of[pair][0] + axis] - offsets[2 * two_of[pair][1] + axis]);
}

static bool judged(enum judge by, const int32_t *offsets)
{
    bool turned = false;
    for (int pair = 0; pair < 6; pair++) {
        int32_t across = judges[by].axes[0] ? apart(offsets, pair, 0) : 0, down = judges[by].axes[1] ? apart(offsets, pair, 1) : 0;
        int32_t far = by == SUMMED ? across + down : across > down ? across : down;
        turned = turned || (judges[by].looks[pair] && far >= judges[by].least);
    }
    return turned;
}

/* How many of the six pairs are 2 apart or more. */
static int pairs_apart(const int32_t *offsets)
{
    int pairs = 0;
    for (int pair = 0; pair < 6; pair++)
        pairs += apart(offsets, pair, 0) >= 2 || apart(offsets, pair, 1) >= 2;
    return pairs;
}

/* ---- What the accepted calls of a group have shown ---- */

static struct {
    int turned, straight;             /* so many are */
    int slips[SLIPS], judges[JUDGES]; /* and so many would be answered otherwise */
    int crossed, exchanged;           /* with dx and dy exchanged, or upper right and lower left */
} seen;

static void begin_seen(const char *group)
{
    memset(&seen, 0, sizeof seen);
    begin_group(group);
}

static void see_slips(const struct vector *v, const int32_t *offsets)
{
    for (enum slip slip = MIDDLE_COLUMN; slip < SLIPS; slip++)
        if (slip != FRAME_THRESHOLD || v->s == 0) {
            int32_t other[OFFSETS];
            slipped(v, slip, other);
            seen.slips[slip] += memcmp(offsets, other, sizeof other) != 0;
        }
}

static void see_judges(const int32_t *offsets, bool turned)
{
    bool crossed = false;
    for (enum judge judge = NEIGHBOURS; judge < JUDGES; judge++)
        seen.judges[judge] += judged(judge, offsets) != turned;
    for (int q = 0; q < QUADRANTS; q++)
        crossed = crossed || offsets[2 * q] != offsets[2 * q + 1];
    seen.crossed += crossed;
    seen.exchanged += memcmp(offsets + 2, offsets + 4, 2 * sizeof *offsets) != 0;
    seen.turned += turned;
    seen.straight += !turned;
}

/* "A quadrant's offset equals that of the same pixels cropped and aligned as a pair", cropped by another hand here. */
static void see(const struct vector *v, const struct answer *a)
{
    const int32_t *offsets = a->out[0];
    int32_t pairs[OFFSETS];
    slipped(v, NO_SLIP, pairs);
    must(memcmp(offsets, pairs, sizeof pairs) == 0, "a quadrant's offset is that of its pixels as a pair");
    must(a->values[0] == (pairs_apart(offsets) > 0), "turned is said when two of the four are 2 apart");
    see_judges(offsets, a->values[0]);
    if (v->call == CALL_QUADRANTS)
        see_slips(v, offsets);
}

/* Adds the call, and gives its number. */
static uint32_t add_seen(const struct vector *v)
{
    struct answer a = answer_of(v);
    if (a.refusal == 0)
        see(v, &a);
    free_answer(a);
    return add(v);
}

/* ---- Sizes and settings ---- */

/* Every percentile, without tolerance and with some. */
static void add_settings(uint32_t w, uint32_t h, uint32_t s, const uint8_t *rasters)
{
    for (int p = 0; p < 3; p++)
        for (uint32_t t = 0; t < 2; t++) {
            struct vector v = quadrants_vector(w, h, s, rasters);
            v.percentile = all_percentiles[p];
            v.tolerance = t ? random_below(12) : 0;
            must(add_seen(&v) == 0, "good settings are accepted");
        }
}

/* Sizes odd and even, from the least side for s on; quadrants' widths around multiples of 64. */
static void sizes(void)
{
    static const uint32_t sizes[][3] = { { 8, 8, 0 },   { 9, 8, 0 },   { 8, 9, 0 },    { 9, 9, 0 },   { 11, 10, 0 },
                                         { 15, 13, 0 }, { 127, 8, 0 }, { 131, 8, 0 },  { 9, 130, 0 }, { 16, 16, 1 },
                                         { 17, 16, 1 }, { 16, 17, 1 }, { 19, 21, 1 },  { 130, 17, 1 }, { 32, 32, 2 },
                                         { 33, 35, 2 }, { 64, 65, 3 } };
    begin_seen("quadrants: sizes and halvings");
    for (int i = 0; i < COUNT_OF(sizes); i++) {
        uint32_t w = sizes[i][0], h = sizes[i][1], s = sizes[i][2];
        uint8_t *rasters = bracket_of(w, h, 2, 1 << s);
        add_settings(w, h, s, rasters);
        free(rasters);
    }
}

static void settings(void)
{
    static const uint32_t tolerances[] = { 0, 1, 2, 4, 16, 63, 64, 65, 256 + 4, 0xFFFFFFFF };
    static const uint32_t percentiles[] = { 17, 50, 83, 0, 16, 18, 49, 51, 82, 84, 256 + 50, 0xFFFFFFFF };
    begin_seen("quadrants: tolerances and percentiles");
    uint8_t *rasters = bracket_of(37, 35, 2, 3);
    for (int t = 0; t < COUNT_OF(tolerances); t++)
        for (int p = 0; p < COUNT_OF(percentiles); p++) {
            struct vector v = quadrants_vector(37, 35, 2, rasters);
            v.tolerance = tolerances[t];
            v.percentile = percentiles[p];
            must(add_seen(&v) == (t > 6 ? 5u : p > 2 ? 8u : 0u), "5 is tested before 8");
        }
    for (uint32_t s = 0; s <= 10; s++) {
        struct vector v = quadrants_vector(37, 35, s, rasters);
        must(add_seen(&v) == (s > 8 ? 3u : s > 2 ? 4u : 0u), "a quadrant of 18 by 17 has two halvings");
    }
    free(rasters);
}

/* Offsets and work memory just short, just enough, and longer, in every combination. */
static void add_lengths(uint32_t w, uint32_t h, uint32_t s)
{
    uint8_t *rasters = bracket_of(w, h, 2, 2);
    for (enum fit offsets = SHORT; offsets < FITS; offsets++)
        for (enum fit grey = SHORT; grey < FITS; grey++)
            for (enum fit words = SHORT; words < FITS; words++) {
                struct vector v = quadrants_vector(w, h, s, rasters);
                v.out[0] = length_of(offsets, v.out[0], 5);
                v.grey = length_of(grey, v.grey, 99);
                v.words = length_of(words, v.words, 7);
                bool short_memory = grey == SHORT || words == SHORT;
                must(add_seen(&v) == (offsets == SHORT ? 10 : short_memory ? 11 : 0), "short offsets are 10, then work memory 11");
            }
    free(rasters);
}

/* Here a quadrant has a word a row less than half the frame's, or more. */
static void lengths(void)
{
    begin_seen("quadrants: lent lengths");
    add_lengths(17, 19, 1);
    add_lengths(128, 9, 0);
    add_lengths(131, 8, 0);
}

/* ---- Refusals ---- */

/* A side with which the frame would do for s = 1, but not a quadrant; where the size is refused already, a side that is good. */
static void break_quadrant(struct vector *v)
{
    static const uint32_t small[] = { 8, 14, 15 };
    bool width = 0 < v->w && v->w <= 4096, height = 0 < v->h && v->h <= 4096;
    uint32_t which = random_below(3);
    if (width && (which != 0 || !height))
        v->w = one_of(small, COUNT_OF(small));
    if (height && (which != 1 || !width))
        v->h = one_of(small, COUNT_OF(small));
}

static void refusals(void)
{
    static const struct breaker breakers[] = {
        { 2, false, break_size },       { 3, false, break_halvings },   { 4, false, break_quadrant },
        { 5, false, break_tolerance },  { 8, false, break_percentile }, { 9, true, break_input },
        { 10, true, break_output },     { 11, true, break_memory },
    };
    begin_seen("quadrants: refusals");
    add_subsets(quadrants_vector(16, 19, 1, noise), breakers, COUNT_OF(breakers), 1);
}

static void add_side(uint32_t w, uint32_t h, uint32_t s, bool stored)
{
    struct vector v = quadrants_vector(w, h, s, noise);
    if (!stored)
        v.in[0].length = v.in[1].length = v.grey = v.words = 0;
    must(add_seen(&v) == (w < 8u << s || h < 8u << s ? 4 : 0), "a quadrant's side is 2^(s+2) at least");
}

/* Sides of 1, and those around the least for s. From s = 3 on they are too large to store: 9 applies too, after 4. */
static void least_sides(void)
{
    begin_seen("quadrants: least sides");
    for (uint32_t s = 0; s <= 2; s++) {
        uint32_t least = 8u << s, sides[] = { 1, least / 2, least - 1, least };
        for (int i = 0; i < 16; i++)
            add_side(sides[i / 4], sides[i % 4], s, true);
    }
    for (uint32_t s = 3; s <= 8; s++) {
        uint32_t least = 8u << s;
        add_side(least - 1, least, s, false);
        add_side(least, least - 1, s, false);
        add_side(least / 2, least / 2, s, false);
    }
}

/* ---- Frames that turn ---- */

/* A turn: sine and cosine in 1024ths. */
struct turn {
    int32_t sine, cosine;
};

enum { MARGIN = 12 };

/* The pixel nearest to a place that is given from the middle of a side of so many pixels, in half pixels and 1024ths. */
static uint32_t nearest(int32_t place, uint32_t side)
{
    return (uint32_t)(place + 1024 * (int32_t)side) / 2048;
}

/* A frame as a camera sees it that has turned about its middle, out of a raster that is wider by a margin on every side. */
static void turn_frame(const uint8_t *wide, struct turn by, uint32_t w, uint32_t h, uint8_t *raster)
{
    uint32_t wide_w = w + 2 * MARGIN, wide_h = h + 2 * MARGIN;
    for (uint32_t y = 0; y < h; y++)
        for (uint32_t x = 0; x < w; x++) {
            int32_t across = 2 * (int32_t)x + 1 - (int32_t)w, down = 2 * (int32_t)y + 1 - (int32_t)h;
            uint32_t from_x = nearest(by.cosine * across - by.sine * down, wide_w);
            uint32_t from_y = nearest(by.sine * across + by.cosine * down, wide_h);
            memcpy(raster + 3 * ((size_t)y * w + x), wide + 3 * ((size_t)from_y * wide_w + from_x), 3);
        }
}

/* A scene as it was, and then turned and exposed otherwise: one raster after the other. */
static void turned_pair(const struct scene *scene, struct turn by, uint32_t w, uint32_t h, uint8_t *rasters)
{
    static uint8_t wide[3 * MOST_PIXELS];
    const struct exposure plain = { -MARGIN, -MARGIN, 64, 0, 0 }, brighter = { -MARGIN, -MARGIN, 80, 10, 1 };
    expose(scene, plain, w + 2 * MARGIN, h + 2 * MARGIN, wide);
    turn_frame(wide, (struct turn){ 0, 1024 }, w, h, rasters);
    expose(scene, brighter, w + 2 * MARGIN, h + 2 * MARGIN, wide);
    turn_frame(wide, by, w, h, rasters + (size_t)3 * w * h);
}

/* Up to ten degrees either way. */
static void turned(void)
{
    static const uint32_t sizes[][3] = { { 40, 36, 2 }, { 37, 41, 2 }, { 33, 35, 1 } };
    static const struct turn turns[] = { { 0, 1024 },   { 36, 1023 },  { -71, 1022 }, { 107, 1018 },
                                         { -143, 1014 }, { 178, 1008 }, { -178, 1008 } };
    static uint8_t rasters[2 * 3 * 40 * 41];
    begin_seen("quadrants: one scene that turns");
    for (int i = 0; i < COUNT_OF(sizes); i++) {
        uint32_t w = sizes[i][0], h = sizes[i][1];
        struct scene scene = random_scene(w, h);
        for (int k = 0; k < COUNT_OF(turns); k++) {
            turned_pair(&scene, turns[k], w, h, rasters);
            add_settings(w, h, sizes[i][2], rasters);
        }
    }
    must(seen.turned >= 45 && seen.straight >= 12, "of turned frames many are said to be turned, some not");
}

/* ---- Quadrants that slide each for itself ---- */

static void put_part(const uint8_t *cropped, uint32_t w, struct part part, uint8_t *raster)
{
    size_t row = 3 * (size_t)part.w;
    for (uint32_t y = 0; y < part.h; y++)
        memcpy((uint8_t *)part_row(raster, w, part, y), cropped + y * row, row);
}

/* One scene in both rasters, moved by just so much as the pair tells; bright and contrast are the quadrant's own. */
static void draw_moved(const struct vector *v, struct part part, const int32_t move[2], uint8_t *first, uint8_t *second)
{
    int32_t found[2];
    do {
        struct scene scene = random_scene(part.w, part.h);
        struct exposure by = { 0, 0, random_between(16, 64), random_between(0, 150), 0 };
        expose(&scene, by, part.w, part.h, first);
        by.x = move[0];
        by.y = move[1];
        expose(&scene, by, part.w, part.h, second);
        align_parts(ref_pair, v, part, first, second, found);
    } while (memcmp(found, move, sizeof found) != 0);
}

static uint8_t moved_rasters[2 * 3 * MOST_PIXELS];

/* Frames whose quadrants have just these offsets; in the middle column and row stands anything. */
static struct vector moved_vector(uint32_t w, uint32_t h, uint32_t s, const int32_t moves[OFFSETS])
{
    static uint8_t first[3 * MOST_PIXELS], second[3 * MOST_PIXELS];
    uint8_t *rasters = moved_rasters;
    struct vector v = quadrants_vector(w, h, s, rasters);
    random_bytes(rasters, (size_t)6 * w * h);
    for (int q = 0; q < QUADRANTS; q++) {
        struct part part = part_of(w, h, q, NO_SLIP);
        draw_moved(&v, part, moves + 2 * q, first, second);
        put_part(first, w, part, rasters);
        put_part(second, w, part, rasters + (size_t)3 * w * h);
    }
    return v;
}

/* One scene, moved as a whole: all four quadrants tell that move. */
static void draw_slid(const struct vector *v, int32_t dx, int32_t dy, uint8_t *rasters)
{
    const int32_t moves[OFFSETS] = { dx, dy, dx, dy, dx, dy, dx, dy };
    int32_t found[OFFSETS];
    do {
        struct scene scene = random_scene(v->w, v->h);
        expose(&scene, (struct exposure){ 0, 0, 64, 0, 0 }, v->w, v->h, rasters);
        expose(&scene, (struct exposure){ dx, dy, 80, 10, 0 }, v->w, v->h, rasters + v->in[0].length);
        slipped(v, NO_SLIP, found);
    } while (memcmp(found, moves, sizeof found) != 0);
}

static void slid(void)
{
    static const int32_t moves[][2] = { { 0, 0 }, { 1, 0 }, { 0, -1 }, { -2, 1 }, { 2, 2 }, { 1, -3 }, { 3, 0 }, { -3, 3 } };
    begin_seen("quadrants: one scene that slides");
    for (int i = 0; i < COUNT_OF(moves); i++)
        for (uint32_t s = 1; s <= 1 + i % 2u; s++) {
            struct vector v = quadrants_vector(s == 1 ? 24 : 35, s == 1 ? 21 : 33, s, moved_rasters);
            draw_slid(&v, moves[i][0], moves[i][1], moved_rasters);
            must(add_seen(&v) == 0, "slid frames are accepted");
        }
    must(seen.turned == 0, "frames that slide as a whole are not turned");
}

static const uint32_t small_sizes[][3] = { { 9, 8, 0 }, { 16, 17, 1 } };

/* One of the six pairs is 2 apart on one axis, every other pair 1 at most. */
static void add_apart(int pair, bool back, int axis, const uint32_t size[3])
{
    int32_t moves[OFFSETS], base[2] = { size[2] ? random_between(-1, 1) : 0, size[2] ? random_between(-1, 1) : 0 };
    for (int i = 0; i < OFFSETS; i++)
        moves[i] = base[i % 2];
    moves[2 * two_of[pair][back] + axis] -= 1;
    moves[2 * two_of[pair][!back] + axis] += 1;
    struct vector v = moved_vector(size[0], size[1], size[2], moves);
    int before = seen.turned;
    must(pairs_apart(moves) == 1 && add_seen(&v) == 0 && seen.turned == before + 1, "one pair 2 apart is turned");
}

static void two_apart(void)
{
    begin_seen("quadrants: each two of the four 2 apart");
    for (int i = 0; i < COUNT_OF(small_sizes); i++)
        for (int pair = 0; pair < 6; pair++)
            for (int back = 0; back < 2; back++)
                for (int axis = 0; axis < 2; axis++)
                    add_apart(pair, back, axis, small_sizes[i]);
    must(seen.judges[NEIGHBOURS] == 16 && seen.judges[DIAGONALS] == 32, "neighbours alone miss diagonals, and vice versa");
    must(seen.judges[AGAINST_FIRST] == 24 && seen.judges[IN_TURN] == 24, "three pairs of the six are not enough");
    must(seen.judges[ACROSS] == 24 && seen.judges[DOWN] == 24, "one axis is not enough");
    must(seen.judges[FROM_3] == 48, "2 apart is enough");
}

static void one_apart(void)
{
    begin_seen("quadrants: 1 apart at most");
    for (int n = 0; n < 36; n++) {
        const uint32_t *size = small_sizes[n % COUNT_OF(small_sizes)];
        int32_t reach = size[2] ? 2 : 0, moves[OFFSETS];
        const int32_t base[2] = { random_between(-reach, reach) - 1, random_between(-reach, reach) - 1 };
        for (int i = 0; i < OFFSETS; i++)
            moves[i] = base[i % 2] + (int32_t)random_below(2) + (size[2] == 0 && n / 2 % 2);
        struct vector v = moved_vector(size[0], size[1], size[2], moves);
        must(add_seen(&v) == 0, "quadrants 1 apart are accepted");
    }
    must(seen.turned == 0, "1 apart is not turned");
    must(seen.judges[FROM_1] >= 30 && seen.judges[SUMMED] >= 20, "1 apart on an axis, or on both, is not turned");
}

/* ---- Frames on which a slip shows ---- */

/* Each quadrant has its own brightness: by the frame's threshold most are all dark or all bright. */
static void thresholds(void)
{
    static const uint32_t sizes[][3] = { { 16, 17, 0 }, { 19, 16, 0 }, { 17, 18, 1 }, { 33, 32, 2 } };
    begin_seen("quadrants: thresholds far apart");
    for (int i = 0; i < COUNT_OF(sizes); i++)
        for (int n = 0; n < (sizes[i][2] < 2 ? 6 : 2); n++) {
            int32_t moves[OFFSETS];
            for (int k = 0; k < OFFSETS; k++)
                moves[k] = random_between(-1, 1);
            struct vector v = moved_vector(sizes[i][0], sizes[i][1], sizes[i][2], moves);
            for (int p = 0; p < 3; p++) {
                v.percentile = all_percentiles[p];
                must(add_seen(&v) == 0, "quadrants of any brightness are accepted");
            }
        }
    must(seen.slips[FRAME_THRESHOLD] >= 24, "the frame's threshold gives other offsets in 24 of the 36 without halving");
}

/* Frames of few values on which this slip gives other offsets. */
static void draw_slip(const struct vector *v, enum slip slip, uint8_t *rasters)
{
    int32_t right[OFFSETS], wrong[OFFSETS];
    do {
        for (size_t i = 0; i < 2 * v->in[0].length; i++)
            rasters[i] = (uint8_t)random_below(4);
        slipped(v, NO_SLIP, right);
        slipped(v, slip, wrong);
    } while (memcmp(right, wrong, sizeof right) == 0);
}

static void middles(void)
{
    static const uint32_t sizes[][3] = { { 9, 9, 0 }, { 11, 9, 0 }, { 17, 17, 1 } };
    begin_seen("quadrants: the middle column and row");
    for (int i = 0; i < COUNT_OF(sizes); i++)
        for (enum slip slip = MIDDLE_COLUMN; slip <= FLOORED_TOP; slip++)
            for (int p = 0; p < 3; p++) {
                struct vector v = quadrants_vector(sizes[i][0], sizes[i][1], sizes[i][2], moved_rasters);
                v.percentile = all_percentiles[p];
                draw_slip(&v, slip, moved_rasters);
                must(add_seen(&v) == 0, "odd sizes are accepted");
            }
    for (enum slip slip = MIDDLE_COLUMN; slip <= FLOORED_TOP; slip++)
        must(seen.slips[slip] >= 18, "the middle column or row would give other offsets in half of these");
}

static void dull(void)
{
    static const uint32_t sizes[][3] = { { 8, 8, 0 }, { 9, 11, 0 }, { 16, 17, 1 }, { 21, 16, 1 }, { 33, 34, 2 } };
    static uint8_t rasters[2 * 3 * 33 * 34];
    begin_seen("quadrants: ties");
    for (int i = 0; i < COUNT_OF(sizes); i++)
        for (enum dull kind = DULL_FLAT; kind < DULL_KINDS; kind++) {
            dull_frames(kind, sizes[i][0], sizes[i][1], 2, rasters);
            add_settings(sizes[i][0], sizes[i][1], sizes[i][2], rasters);
        }
    must(seen.slips[WARDS_ORDER] >= 90, "the order decides 90 of these 120");
}

/* Parts of the noise, which the file has already. */
static void any_bytes(void)
{
    begin_seen("quadrants: any bytes");
    for (int n = 0; n < 160; n++) {
        uint32_t s = random_below(3), least = 8u << s, w = least + random_below(9), h = least + random_below(9);
        const uint8_t *bytes = n % 2 ? noise : ties;
        struct vector v = quadrants_vector(w, h, s, bytes + random_below(NOISE_BYTES - 6 * w * h));
        v.percentile = one_of(all_percentiles, 3);
        v.tolerance = random_below(3) ? 0 : random_below(65);
        must(add_seen(&v) == 0, "any bytes are accepted");
    }
    must(seen.turned >= 80 && seen.straight >= 20, "of frames of any bytes many are said to be turned, some not");
    must(seen.crossed >= 100 && seen.exchanged >= 90, "dx and dy, or two quadrants, exchanged are seen in 90 of these 160");
}

/* ---- Made frames ---- */

/* Overlapping parts of the made bytes: the second begins dy rows and dx pixels later. */
static void add_made(uint32_t w, uint32_t h, uint32_t s, uint32_t scene, uint32_t dx, uint32_t dy)
{
    size_t size = (size_t)3 * w * h, later = 3 * ((size_t)dy * w + dx);
    uint8_t *made = malloc(size + later);
    make_frames((struct made){ scene, w, 65536 }, size + later, made);
    struct vector v = quadrants_vector(w, h, s, made);
    v.call = CALL_MADE_QUADRANTS;
    v.in[1].data = made + later;
    v.made = (struct slice){ made, size + later };
    v.made_rows = 65536;
    v.scene = scene;
    v.percentile = all_percentiles[scene % 3];
    v.tolerance = scene % 2 ? scene : 0;
    must(add_seen(&v) == 0, "made frames are accepted");
    free(made);
}

static void made(void)
{
    begin_seen("made frames: quadrants, s up to 7");
    add_made(4096, 8, 0, 5, 1, 1);
    add_made(9, 4096, 0, 1, 1, 0);
    add_made(131, 129, 3, 2, 5, 3);
    add_made(128, 128, 4, 3, 2, 1);
    add_made(131, 150, 4, 4, 9, 3);
    add_made(256, 259, 5, 3, 11, 6);
    add_made(321, 257, 5, 0, 1, 12);
    add_made(512, 515, 6, 7, 20, 0);
    add_made(1024, 1024, 7, 0, 5, 3);
    add_made(1027, 1025, 7, 1, 7, 4);
    must(seen.turned >= 2 && seen.straight >= 2, "of made frames some are said to be turned, some not");
}

/* ---- The file ---- */

void quadrant_groups(uint64_t seed)
{
    random_begin(seed, "quadrants");
    keep_noise();
    sizes();
    settings();
    lengths();
    refusals();
    least_sides();
    turned();
    slid();
    two_apart();
    one_apart();
    thresholds();
    middles();
    dull();
    any_bytes();
    made();
}
