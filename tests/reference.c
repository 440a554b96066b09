/* Document 01 and Papers 1 to 7 of document 02, pixel by pixel. Sentences in quotation marks are the documents'. */
#include "reference.h"

#include <stdio.h>
#include <stdlib.h>

enum {
    MAX_SIDE = 4096,
    MAX_HALVINGS = 8,
    MAX_TOLERANCE = 64,
    MAX_BAND = 16,
    MAX_FRAMES = 16,
    WORD_BITS = 64,
    CANDIDATES = 9,
    QUADRANTS = 4,
    MAX_DIGITS = 9,
    LARGEST_VALUE = 255,
    MIN_AREA_OFFSET = -32768,
    MAX_AREA_OFFSET = 32767,
    MOST_COUNTS = CANDIDATES * (MAX_HALVINGS + 1),
    HELD_NUMBERS = 36,
    BRACKET_FILE = 65536,
    BRACKET_GREY = 65536,
    BRACKET_WORDS = 8192,
    BRACKET_COUNTS = MOST_COUNTS,
};

/* A grey frame: "one byte a pixel", rows from the top. */
struct frame {
    uint32_t w, h;
    uint8_t *grey;
};

/* The two bits of each pixel of a frame, a byte a bit. */
struct bits {
    uint32_t w, h;
    uint8_t *threshold, *exclusion;
};

/* "Offset (dx,dy) moves a frame right by dx and down by dy." */
struct offset {
    int64_t dx, dy;
};

/* "The difference count now also gives the compared number". */
struct tally {
    uint32_t count, compared;
};

/* The rule that leaves pixels out: the tolerance T, or "a band b from 0 to 16 in place of T". */
struct rule {
    bool band;
    uint32_t number; /* T or b */
};

/* Where "Pair and series, new order and kept, write these numbers beside the counts, in the same order". */
struct tallies {
    uint32_t *counts, *compared;
};

static struct rule by_tolerance(uint32_t tolerance)
{
    return (struct rule){ false, tolerance };
}

static struct rule by_band(uint32_t band)
{
    return (struct rule){ true, band };
}

static void *memory(size_t bytes)
{
    void *new = malloc(bytes ? bytes : 1);
    if (!new) {
        fprintf(stderr, "reference: no memory\n");
        exit(2);
    }
    return new;
}

/* ---- Sizes ---- */

static size_t pixels(uint32_t w, uint32_t h)
{
    return (size_t)w * h;
}

/* "A raster is rows from the top, three bytes a pixel: R, G, B." */
static size_t raster_bytes(uint32_t w, uint32_t h)
{
    return 3 * pixels(w, h);
}

/* "A bitmap row is W = ceil(w/64) words of 64 bits." */
static uint32_t row_words(uint32_t w)
{
    uint32_t words = 0;
    while (words * WORD_BITS < w)
        words++;
    return words;
}

static size_t bitmap_words(uint32_t w, uint32_t h)
{
    return (size_t)row_words(w) * h;
}

/* "The counts are given as 9·(s+1) 32-bit numbers"; the compared numbers "into a further buffer of the same length" */
static size_t pair_counts(uint32_t s)
{
    return (size_t)CANDIDATES * (s + 1);
}

/* "grey, 2·(sum over levels of width·height) bytes" */
static size_t grey_memory(uint32_t w, uint32_t h, uint32_t s)
{
    size_t sum = 0;
    for (uint32_t level = 0; level <= s; level++) {
        sum += pixels(w, h);
        w /= 2;
        h /= 2;
    }
    return 2 * sum;
}

/* "words, 6·W·h" */
static size_t word_memory(uint32_t w, uint32_t h)
{
    return 6 * bitmap_words(w, h);
}

/* ---- Conditions of the refusal numbers ---- */

/* 2. "A width or height is 0 or above 4096." */
static bool bad_size(uint32_t w, uint32_t h)
{
    return w == 0 || w > MAX_SIDE || h == 0 || h > MAX_SIDE;
}

/* 4. "A side is below 2^(s+2)" */
static bool too_small(uint32_t w, uint32_t h, uint32_t s)
{
    uint32_t least = 4;
    for (uint32_t i = 0; i < s; i++)
        least *= 2;
    return w < least || h < least;
}

/* 5. The tolerance is above 64. "15, b is above 16, tested in the place of 5." */
static uint32_t rule_refusal(struct rule rule)
{
    if (rule.band)
        return rule.number > MAX_BAND ? 15 : 0;
    return rule.number > MAX_TOLERANCE ? 5 : 0;
}

/* 8. "… or one isn't 17, 50 or 83." */
static bool bad_percentile(uint32_t percentile)
{
    return percentile != 17 && percentile != 50 && percentile != 83;
}

static bool bad_percentiles(uint32_t n, const uint32_t *percentiles, size_t percentiles_len)
{
    if (percentiles_len != n - 1)
        return true;
    for (size_t i = 0; i < percentiles_len; i++)
        if (bad_percentile(percentiles[i]))
            return true;
    return false;
}

/* 11. "Grey or word work memory is shorter than needed." */
static bool short_memory(uint32_t w, uint32_t h, uint32_t s, size_t grey_len, size_t words_len)
{
    return grey_len < grey_memory(w, h, s) || words_len < word_memory(w, h);
}

/* ---- Pixel rules ---- */

/* "Grey = (54·R + 183·G + 19·B) / 256, rounded down." */
static uint8_t grey_of(uint8_t red, uint8_t green, uint8_t blue)
{
    return (uint8_t)((54 * red + 183 * green + 19 * blue) / 256);
}

static void grey_frame(const uint8_t *raster, size_t count, uint8_t *grey)
{
    for (size_t i = 0; i < count; i++)
        grey[i] = grey_of(raster[3 * i], raster[3 * i + 1], raster[3 * i + 2]);
}

/* "the second smallest, repeats counted, of its four": at most one is smaller, and at least two are not larger. */
static uint8_t second_smallest(const uint8_t four[4])
{
    for (int i = 0; i < 4; i++) {
        int smaller = 0, not_larger = 0;
        for (int j = 0; j < 4; j++) {
            smaller += four[j] < four[i];
            not_larger += four[j] <= four[i];
        }
        if (smaller <= 1 && not_larger >= 2)
            return four[i];
    }
    abort();
}

/* "Halving gives floor(w/2) by floor(h/2); an odd last column or row is dropped." */
static void halve_frame(const uint8_t *grey, uint32_t w, uint32_t h, uint8_t *out)
{
    for (uint32_t y = 0; y < h / 2; y++)
        for (uint32_t x = 0; x < w / 2; x++) {
            const uint8_t *upper = grey + (size_t)(2 * y) * w + 2 * x;
            const uint8_t *lower = grey + (size_t)(2 * y + 1) * w + 2 * x;
            const uint8_t four[4] = { upper[0], upper[1], lower[0], lower[1] };
            out[(size_t)y * (w / 2) + x] = second_smallest(four);
        }
}

static uint64_t pixels_at_most(const uint8_t *grey, size_t count, uint32_t value)
{
    uint64_t found = 0;
    for (size_t i = 0; i < count; i++)
        found += grey[i] <= value;
    return found;
}

/* "the smallest grey value v with 100·(pixels at most v) ≥ P·w·h" */
static uint8_t threshold_of(const uint8_t *grey, size_t count, uint32_t percentile)
{
    for (uint32_t v = 0; v <= 255; v++)
        if (100 * pixels_at_most(grey, count, v) >= (uint64_t)percentile * count)
            return (uint8_t)v;
    abort();
}

/* "Threshold bit: 1 where grey > t." */
static bool threshold_bit(uint8_t grey, uint8_t t)
{
    return grey > t;
}

/* "Exclusion bit: 0 where |grey − t| ≤ T, else 1." */
static bool exclusion_bit(uint8_t grey, uint8_t t, uint32_t tolerance)
{
    return (uint32_t)abs((int)grey - (int)t) > tolerance;
}

/* "Its exclusion bit is 0 where grey lies between the thresholds for percentiles P−b and P+b, both included". */
static bool band_bit(uint8_t grey, uint8_t lower, uint8_t upper)
{
    return !(lower <= grey && grey <= upper);
}

/* ---- Bitmaps ---- */

/* "Pixel x is bit x mod 64 (bit 0 the lowest) of word floor(x/64)." */
static bool read_bit(const uint64_t *bitmap, uint32_t w, uint32_t x, uint32_t y)
{
    return bitmap[(size_t)y * row_words(w) + x / WORD_BITS] >> (x % WORD_BITS) & 1;
}

static void write_bit(uint64_t *bitmap, uint32_t w, uint32_t x, uint32_t y, bool bit)
{
    uint64_t *word = &bitmap[(size_t)y * row_words(w) + x / WORD_BITS];
    uint64_t mask = (uint64_t)1 << (x % WORD_BITS);
    *word = bit ? *word | mask : *word & ~mask;
}

/* "Bits past w are written 0". */
static void clear_past_width(uint64_t *bitmap, uint32_t w, uint32_t h)
{
    for (uint32_t y = 0; y < h; y++)
        for (uint32_t x = w; x < row_words(w) * WORD_BITS; x++)
            write_bit(bitmap, w, x, y, false);
}

static bool in_frame(int64_t x, int64_t y, uint32_t w, uint32_t h)
{
    return 0 <= x && x < w && 0 <= y && y < h;
}

static struct bits new_bits(uint32_t w, uint32_t h)
{
    return (struct bits){ w, h, memory(pixels(w, h)), memory(pixels(w, h)) };
}

static void free_bits(struct bits bits)
{
    free(bits.threshold);
    free(bits.exclusion);
}

static void exclude_by_tolerance(const struct frame *frame, uint8_t t, uint32_t tolerance, uint8_t *exclusion)
{
    for (size_t i = 0; i < pixels(frame->w, frame->h); i++)
        exclusion[i] = exclusion_bit(frame->grey[i], t, tolerance);
}

/* The frame's own thresholds, "at each level". */
static void exclude_by_band(const struct frame *frame, uint32_t percentile, uint32_t band, uint8_t *exclusion)
{
    size_t count = pixels(frame->w, frame->h);
    uint8_t lower = threshold_of(frame->grey, count, percentile - band);
    uint8_t upper = threshold_of(frame->grey, count, percentile + band);
    for (size_t i = 0; i < count; i++)
        exclusion[i] = band_bit(frame->grey[i], lower, upper);
}

/* t is the threshold for the percentile. */
static struct bits bits_of_frame(const struct frame *frame, uint8_t t, uint32_t percentile, struct rule rule)
{
    struct bits bits = new_bits(frame->w, frame->h);
    for (size_t i = 0; i < pixels(frame->w, frame->h); i++)
        bits.threshold[i] = threshold_bit(frame->grey[i], t);
    if (rule.band)
        exclude_by_band(frame, percentile, rule.number, bits.exclusion);
    else
        exclude_by_tolerance(frame, t, rule.number, bits.exclusion);
    return bits;
}

static struct bits bits_of_words(uint32_t w, uint32_t h, const uint64_t *threshold, const uint64_t *exclusion)
{
    struct bits bits = new_bits(w, h);
    for (uint32_t y = 0; y < h; y++)
        for (uint32_t x = 0; x < w; x++) {
            bits.threshold[(size_t)y * w + x] = read_bit(threshold, w, x, y);
            bits.exclusion[(size_t)y * w + x] = read_bit(exclusion, w, x, y);
        }
    return bits;
}

/* "both exclusion bits 1" */
static bool both_kept(const struct bits *first, size_t i, const struct bits *second, size_t j)
{
    return first->exclusion[i] && second->exclusion[j];
}

/* "both exclusion bits 1 and the threshold bits unequal" */
static bool differ(const struct bits *first, size_t i, const struct bits *second, size_t j)
{
    return both_kept(first, i, second, j) && first->threshold[i] != second->threshold[j];
}

/* "Difference count at (dx,dy): pixels (x,y) whose partner (x−dx, y−dy) in the second frame lies in it, with …"; "the compared
 * number: pixels with a partner in the frame and both exclusion bits 1" */
static struct tally tally_at(const struct bits *first, const struct bits *second, struct offset by)
{
    uint32_t w = first->w, h = first->h;
    struct tally tally = { 0, 0 };
    for (int64_t y = 0; y < h; y++)
        for (int64_t x = 0; x < w; x++)
            if (in_frame(x - by.dx, y - by.dy, w, h)) {
                size_t i = (size_t)(y * w + x), j = (size_t)((y - by.dy) * w + (x - by.dx));
                tally.count += differ(first, i, second, j);
                tally.compared += both_kept(first, i, second, j);
            }
    return tally;
}

/* ---- Pair ---- */

/* "With centre (cx,cy) the nine candidates are (cx+i, cy+j), i from −1 to 1 outside, j from −1 to 1 inside." The steps (i, j). */
static const struct offset wards_order[CANDIDATES] = {
    { -1, -1 }, { -1, 0 }, { -1, 1 }, { 0, -1 }, { 0, 0 }, { 0, 1 }, { 1, -1 }, { 1, 0 }, { 1, 1 },
};

/* "The pair and series calls now prefer the least move: (0,0), (−1,0), (1,0), (0,−1), (0,1), (−1,−1), (−1,1), (1,−1), (1,1) around
 * the centre." */
static const struct offset least_move[CANDIDATES] = {
    { 0, 0 }, { -1, 0 }, { 1, 0 }, { 0, -1 }, { 0, 1 }, { -1, -1 }, { -1, 1 }, { 1, -1 }, { 1, 1 },
};

static struct offset sum_of(struct offset a, struct offset b)
{
    return (struct offset){ a.dx + b.dx, a.dy + b.dy };
}

static bool same_offset(struct offset a, struct offset b)
{
    return a.dx == b.dx && a.dy == b.dy;
}

static struct tallies tallies_from(struct tallies to, size_t at)
{
    return (struct tallies){ to.counts + at, to.compared + at };
}

/* "Counts are still written in the former order." The compared numbers "in the same order". */
static void tally_candidates(const struct bits *first, const struct bits *second, struct offset centre, struct tallies to)
{
    for (int k = 0; k < CANDIDATES; k++) {
        struct tally tally = tally_at(first, second, sum_of(centre, wards_order[k]));
        to.counts[k] = tally.count;
        to.compared[k] = tally.compared;
    }
}

static uint32_t count_at(const uint32_t *counts, struct offset step)
{
    int k = 0;
    while (!same_offset(wards_order[k], step))
        k++;
    return counts[k];
}

/* "The first with the least count is the level's answer." The first in this order. */
static struct offset first_least(const uint32_t *counts, struct offset centre, const struct offset order[CANDIDATES])
{
    struct offset best = order[0];
    for (int k = 1; k < CANDIDATES; k++)
        if (count_at(counts, order[k]) < count_at(counts, best))
            best = order[k];
    return sum_of(centre, best);
}

/* "Each level takes its threshold afresh, both frames with the same P." */
static struct offset settle_level(const struct offset order[CANDIDATES], const struct frame *first, const struct frame *second,
                                  struct offset centre, struct rule rule, uint32_t percentile, struct tallies to)
{
    size_t count = pixels(first->w, first->h);
    struct bits bits1 = bits_of_frame(first, threshold_of(first->grey, count, percentile), percentile, rule);
    struct bits bits2 = bits_of_frame(second, threshold_of(second->grey, count, percentile), percentile, rule);
    tally_candidates(&bits1, &bits2, centre, to);
    free_bits(bits1);
    free_bits(bits2);
    return first_least(to.counts, centre, order);
}

static struct frame halved(const struct frame *frame)
{
    struct frame half = { frame->w / 2, frame->h / 2, memory(pixels(frame->w / 2, frame->h / 2)) };
    halve_frame(frame->grey, frame->w, frame->h, half.grey);
    return half;
}

/* "A level's answer rests on that of the next coarser one, doubled; below the coarsest it is (0,0)." Counts: "coarsest level
 * first". */
static struct offset align(const struct offset order[CANDIDATES], const struct frame *first, const struct frame *second,
                           uint32_t s, struct rule rule, uint32_t percentile, struct tallies to)
{
    struct offset centre = { 0, 0 };
    if (s > 0) {
        struct frame half1 = halved(first), half2 = halved(second);
        struct offset coarser = align(order, &half1, &half2, s - 1, rule, percentile, to);
        centre = (struct offset){ 2 * coarser.dx, 2 * coarser.dy };
        free(half1.grey);
        free(half2.grey);
    }
    return settle_level(order, first, second, centre, rule, percentile, tallies_from(to, (size_t)CANDIDATES * s));
}

static struct frame frame_of_raster(uint32_t w, uint32_t h, const uint8_t *raster)
{
    struct frame frame = { w, h, memory(pixels(w, h)) };
    grey_frame(raster, pixels(w, h), frame.grey);
    return frame;
}

static struct offset align_rasters(const struct offset order[CANDIDATES], uint32_t w, uint32_t h, uint32_t s,
                                   struct rule rule, uint32_t percentile, const uint8_t *first, const uint8_t *second,
                                   struct tallies to)
{
    struct frame frame1 = frame_of_raster(w, h, first), frame2 = frame_of_raster(w, h, second);
    struct offset found = align(order, &frame1, &frame2, s, rule, percentile, to);
    free(frame1.grey);
    free(frame2.grey);
    return found;
}

/* ---- Series ---- */

/* "Pair j is frames j−1 and j, with offset d(j)"; "counts run pair 1 first". */
static void align_pairs(const struct offset order[CANDIDATES], uint32_t w, uint32_t h, uint32_t s, struct rule rule,
                        uint32_t n, const uint32_t *percentiles, const uint8_t *rasters, struct offset d[MAX_FRAMES],
                        struct tallies to)
{
    for (uint32_t j = 1; j < n; j++)
        d[j] = align_rasters(order, w, h, s, rule, percentiles[j - 1], rasters + (j - 1) * raster_bytes(w, h),
                             rasters + j * raster_bytes(w, h), tallies_from(to, (j - 1) * pair_counts(s)));
}

/* "Frame r has (0,0). Frame k above r has d(r+1)+…+d(k), frame k below r has −(d(k+1)+…+d(r))." */
static struct offset frame_offset(const struct offset d[MAX_FRAMES], uint32_t r, uint32_t k)
{
    struct offset sum = { 0, 0 };
    for (uint32_t j = r + 1; j <= k; j++) {
        sum.dx += d[j].dx;
        sum.dy += d[j].dy;
    }
    for (uint32_t j = k + 1; j <= r; j++) {
        sum.dx -= d[j].dx;
        sum.dy -= d[j].dy;
    }
    return sum;
}

/* "Offsets are 2·N signed 32-bit numbers, dx before dy". */
static void tell_offsets(const struct offset d[MAX_FRAMES], uint32_t r, uint32_t n, int32_t *offsets)
{
    for (uint32_t k = 0; k < n; k++) {
        struct offset offset = frame_offset(d, r, k);
        offsets[2 * k] = (int32_t)offset.dx;
        offsets[2 * k + 1] = (int32_t)offset.dy;
    }
}

/* ---- Quadrants ---- */

/* Where the first or the second half of a side begins: "each floor(w/2) by floor(h/2), the odd middle column or row left out" */
static uint32_t half_start(uint32_t side, bool second)
{
    return second ? side - side / 2 : 0;
}

/* The pixels of a quadrant as a raster of its own. "upper left, upper right, lower left, lower right" are 0 to 3. */
static uint8_t *cropped(uint32_t w, uint32_t h, int quadrant, const uint8_t *raster)
{
    uint32_t left = half_start(w, quadrant % 2 == 1), top = half_start(h, quadrant >= 2);
    uint8_t *crop = memory(raster_bytes(w / 2, h / 2)), *to = crop;
    for (uint32_t y = top; y < top + h / 2; y++)
        for (uint32_t x = left; x < left + w / 2; x++)
            for (int c = 0; c < 3; c++)
                *to++ = raster[3 * ((size_t)y * w + x) + c];
    return crop;
}

/* "A quadrant's offset equals that of the same pixels cropped and aligned as a pair": by the new order. "no counts" */
static struct offset quadrant_offset(uint32_t w, uint32_t h, uint32_t s, uint32_t tolerance, uint32_t percentile, int quadrant,
                                     const uint8_t *first, const uint8_t *second)
{
    uint32_t counts[MOST_COUNTS], compared[MOST_COUNTS];
    uint8_t *crop1 = cropped(w, h, quadrant, first), *crop2 = cropped(w, h, quadrant, second);
    struct offset found = align_rasters(least_move, w / 2, h / 2, s, by_tolerance(tolerance), percentile, crop1, crop2,
                                        (struct tallies){ counts, compared });
    free(crop1);
    free(crop2);
    return found;
}

/* "say "turned" exactly when two of them differ by more than 1 on an axis" */
bool ref_turned(const int32_t offsets[2 * QUADRANTS])
{
    for (int one = 0; one < QUADRANTS; one++)
        for (int other = one + 1; other < QUADRANTS; other++)
            for (int axis = 0; axis < 2; axis++)
                if (llabs((long long)offsets[2 * one + axis] - offsets[2 * other + axis]) > 1)
                    return true;
    return false;
}

/* ---- The calls on frames and bitmaps ---- */

uint32_t ref_grey(uint32_t w, uint32_t h, const uint8_t *raster, size_t raster_len, uint8_t *grey, size_t grey_len)
{
    if (bad_size(w, h))
        return 2;
    if (raster_len != raster_bytes(w, h))
        return 9;
    if (grey_len < pixels(w, h))
        return 10;
    grey_frame(raster, pixels(w, h), grey);
    return 0;
}

uint32_t ref_halve(uint32_t w, uint32_t h, const uint8_t *grey, size_t grey_len, uint8_t *out, size_t out_len)
{
    if (bad_size(w, h))
        return 2;
    if (w < 2 || h < 2)
        return 4;
    if (grey_len != pixels(w, h))
        return 9;
    if (out_len < pixels(w / 2, h / 2))
        return 10;
    halve_frame(grey, w, h, out);
    return 0;
}

uint32_t ref_threshold(uint32_t w, uint32_t h, uint32_t percentile, const uint8_t *grey, size_t grey_len,
                       uint8_t *threshold)
{
    if (bad_size(w, h))
        return 2;
    if (bad_percentile(percentile))
        return 8;
    if (grey_len != pixels(w, h))
        return 9;
    *threshold = threshold_of(grey, pixels(w, h), percentile);
    return 0;
}

uint32_t ref_bitmaps(uint32_t w, uint32_t h, uint8_t threshold, uint32_t tolerance, const uint8_t *grey, size_t grey_len,
                     uint64_t *threshold_bits, size_t threshold_bits_len, uint64_t *exclusion_bits,
                     size_t exclusion_bits_len)
{
    if (bad_size(w, h))
        return 2;
    if (tolerance > MAX_TOLERANCE)
        return 5;
    if (grey_len != pixels(w, h))
        return 9;
    if (threshold_bits_len < bitmap_words(w, h) || exclusion_bits_len < bitmap_words(w, h))
        return 10;
    for (uint32_t y = 0; y < h; y++)
        for (uint32_t x = 0; x < w; x++) {
            uint8_t value = grey[(size_t)y * w + x];
            write_bit(threshold_bits, w, x, y, threshold_bit(value, threshold));
            write_bit(exclusion_bits, w, x, y, exclusion_bit(value, threshold, tolerance));
        }
    clear_past_width(threshold_bits, w, h);
    clear_past_width(exclusion_bits, w, h);
    return 0;
}

/* "the new bit at (x,y) is the old bit at (x−dx, y−dy) if that lies in the frame, else 0" */
uint32_t ref_shift(uint32_t w, uint32_t h, int32_t dx, int32_t dy, const uint64_t *bitmap, size_t bitmap_len,
                   uint64_t *out, size_t out_len)
{
    if (bad_size(w, h))
        return 2;
    if (bitmap_len != bitmap_words(w, h))
        return 9;
    if (out_len < bitmap_words(w, h))
        return 10;
    for (int64_t y = 0; y < h; y++)
        for (int64_t x = 0; x < w; x++) {
            int64_t from_x = x - dx, from_y = y - dy;
            bool bit = in_frame(from_x, from_y, w, h) && read_bit(bitmap, w, (uint32_t)from_x, (uint32_t)from_y);
            write_bit(out, w, (uint32_t)x, (uint32_t)y, bit);
        }
    clear_past_width(out, w, h);
    return 0;
}

uint32_t ref_total(uint32_t w, uint32_t h, const uint64_t *bitmap, size_t bitmap_len, uint32_t *total)
{
    if (bad_size(w, h))
        return 2;
    if (bitmap_len != bitmap_words(w, h))
        return 9;
    *total = 0;
    for (uint32_t y = 0; y < h; y++)
        for (uint32_t x = 0; x < w; x++)
            *total += read_bit(bitmap, w, x, y);
    return 0;
}

uint32_t ref_difference(uint32_t w, uint32_t h, int32_t dx, int32_t dy, const uint64_t *threshold1, size_t threshold1_len,
                        const uint64_t *exclusion1, size_t exclusion1_len, const uint64_t *threshold2,
                        size_t threshold2_len, const uint64_t *exclusion2, size_t exclusion2_len, uint32_t *count,
                        uint32_t *compared)
{
    if (bad_size(w, h))
        return 2;
    size_t needed = bitmap_words(w, h);
    if (threshold1_len != needed || exclusion1_len != needed || threshold2_len != needed || exclusion2_len != needed)
        return 9;
    struct bits first = bits_of_words(w, h, threshold1, exclusion1);
    struct bits second = bits_of_words(w, h, threshold2, exclusion2);
    struct tally tally = tally_at(&first, &second, (struct offset){ dx, dy });
    *count = tally.count;
    *compared = tally.compared;
    free_bits(first);
    free_bits(second);
    return 0;
}

/* ---- The calls that align ---- */

/* 2 to 5, which pair and series share, or 15 in the place of 5. */
static uint32_t settings_refusal(uint32_t w, uint32_t h, uint32_t s, struct rule rule)
{
    if (bad_size(w, h))
        return 2;
    if (s > MAX_HALVINGS)
        return 3;
    if (too_small(w, h, s))
        return 4;
    return rule_refusal(rule);
}

static uint32_t pair_by(const struct offset order[CANDIDATES], uint32_t w, uint32_t h, uint32_t s, struct rule rule,
                        uint32_t percentile, const uint8_t *first, size_t first_len, const uint8_t *second,
                        size_t second_len, int32_t *dx, int32_t *dy, uint32_t *counts, size_t counts_len,
                        uint32_t *compared, size_t compared_len, size_t grey_len, size_t words_len)
{
    uint32_t refusal = settings_refusal(w, h, s, rule);
    if (refusal)
        return refusal;
    if (bad_percentile(percentile))
        return 8;
    if (first_len != raster_bytes(w, h) || second_len != raster_bytes(w, h))
        return 9;
    if (counts_len < pair_counts(s) || compared_len < pair_counts(s))
        return 10;
    if (short_memory(w, h, s, grey_len, words_len))
        return 11;
    struct tallies to = { counts, compared };
    struct offset found = align_rasters(order, w, h, s, rule, percentile, first, second, to);
    *dx = (int32_t)found.dx;
    *dy = (int32_t)found.dy;
    return 0;
}

uint32_t ref_pair(uint32_t w, uint32_t h, uint32_t s, uint32_t tolerance, uint32_t percentile, const uint8_t *first,
                  size_t first_len, const uint8_t *second, size_t second_len, int32_t *dx, int32_t *dy, uint32_t *counts,
                  size_t counts_len, uint32_t *compared, size_t compared_len, uint8_t *grey, size_t grey_len, uint64_t *words,
                  size_t words_len)
{
    (void)grey;
    (void)words;
    return pair_by(least_move, w, h, s, by_tolerance(tolerance), percentile, first, first_len, second, second_len, dx, dy,
                   counts, counts_len, compared, compared_len, grey_len, words_len);
}

/* "a second pair of calls keeps it": Ward's order. */
uint32_t ref_pair_ward(uint32_t w, uint32_t h, uint32_t s, uint32_t tolerance, uint32_t percentile, const uint8_t *first,
                       size_t first_len, const uint8_t *second, size_t second_len, int32_t *dx, int32_t *dy,
                       uint32_t *counts, size_t counts_len, uint32_t *compared, size_t compared_len, uint8_t *grey,
                       size_t grey_len, uint64_t *words, size_t words_len)
{
    (void)grey;
    (void)words;
    return pair_by(wards_order, w, h, s, by_tolerance(tolerance), percentile, first, first_len, second, second_len, dx, dy,
                   counts, counts_len, compared, compared_len, grey_len, words_len);
}

/* "Add an alignment, pair and series, with a band": in the new order. */
uint32_t ref_pair_band(uint32_t w, uint32_t h, uint32_t s, uint32_t band, uint32_t percentile, const uint8_t *first,
                       size_t first_len, const uint8_t *second, size_t second_len, int32_t *dx, int32_t *dy,
                       uint32_t *counts, size_t counts_len, uint32_t *compared, size_t compared_len, uint8_t *grey,
                       size_t grey_len, uint64_t *words, size_t words_len)
{
    (void)grey;
    (void)words;
    return pair_by(least_move, w, h, s, by_band(band), percentile, first, first_len, second, second_len, dx, dy,
                   counts, counts_len, compared, compared_len, grey_len, words_len);
}

static uint32_t series_refusal(uint32_t w, uint32_t h, uint32_t s, struct rule rule, uint32_t n, uint32_t r,
                               const uint32_t *percentiles, size_t percentiles_len, size_t rasters_len,
                               size_t offsets_len, size_t counts_len, size_t compared_len, size_t grey_len,
                               size_t words_len)
{
    uint32_t refusal = settings_refusal(w, h, s, rule);
    if (refusal)
        return refusal;
    if (n == 0 || n > MAX_FRAMES)
        return 6;
    if (r >= n)
        return 7;
    if (bad_percentiles(n, percentiles, percentiles_len))
        return 8;
    if (rasters_len != n * raster_bytes(w, h))
        return 9;
    size_t counts_needed = (n - 1) * pair_counts(s);
    if (offsets_len < 2 * (size_t)n || counts_len < counts_needed || compared_len < counts_needed)
        return 10;
    if (short_memory(w, h, s, grey_len, words_len))
        return 11;
    return 0;
}

static uint32_t series_by(const struct offset order[CANDIDATES], uint32_t w, uint32_t h, uint32_t s, struct rule rule,
                          uint32_t n, uint32_t r, const uint32_t *percentiles, size_t percentiles_len,
                          const uint8_t *rasters, size_t rasters_len, int32_t *offsets, size_t offsets_len,
                          uint32_t *counts, size_t counts_len, uint32_t *compared, size_t compared_len, size_t grey_len,
                          size_t words_len)
{
    uint32_t refusal = series_refusal(w, h, s, rule, n, r, percentiles, percentiles_len, rasters_len, offsets_len,
                                      counts_len, compared_len, grey_len, words_len);
    if (refusal)
        return refusal;
    struct offset d[MAX_FRAMES];
    align_pairs(order, w, h, s, rule, n, percentiles, rasters, d, (struct tallies){ counts, compared });
    tell_offsets(d, r, n, offsets);
    return 0;
}

uint32_t ref_series(uint32_t w, uint32_t h, uint32_t s, uint32_t tolerance, uint32_t n, uint32_t r,
                    const uint32_t *percentiles, size_t percentiles_len, const uint8_t *rasters, size_t rasters_len,
                    int32_t *offsets, size_t offsets_len, uint32_t *counts, size_t counts_len, uint32_t *compared,
                    size_t compared_len, uint8_t *grey, size_t grey_len, uint64_t *words, size_t words_len)
{
    (void)grey;
    (void)words;
    return series_by(least_move, w, h, s, by_tolerance(tolerance), n, r, percentiles, percentiles_len, rasters, rasters_len,
                     offsets, offsets_len, counts, counts_len, compared, compared_len, grey_len, words_len);
}

uint32_t ref_series_ward(uint32_t w, uint32_t h, uint32_t s, uint32_t tolerance, uint32_t n, uint32_t r,
                         const uint32_t *percentiles, size_t percentiles_len, const uint8_t *rasters, size_t rasters_len,
                         int32_t *offsets, size_t offsets_len, uint32_t *counts, size_t counts_len, uint32_t *compared,
                         size_t compared_len, uint8_t *grey, size_t grey_len, uint64_t *words, size_t words_len)
{
    (void)grey;
    (void)words;
    return series_by(wards_order, w, h, s, by_tolerance(tolerance), n, r, percentiles, percentiles_len, rasters, rasters_len,
                     offsets, offsets_len, counts, counts_len, compared, compared_len, grey_len, words_len);
}

uint32_t ref_series_band(uint32_t w, uint32_t h, uint32_t s, uint32_t band, uint32_t n, uint32_t r,
                         const uint32_t *percentiles, size_t percentiles_len, const uint8_t *rasters, size_t rasters_len,
                         int32_t *offsets, size_t offsets_len, uint32_t *counts, size_t counts_len, uint32_t *compared,
                         size_t compared_len, uint8_t *grey, size_t grey_len, uint64_t *words, size_t words_len)
{
    (void)grey;
    (void)words;
    return series_by(least_move, w, h, s, by_band(band), n, r, percentiles, percentiles_len, rasters, rasters_len, offsets,
                     offsets_len, counts, counts_len, compared, compared_len, grey_len, words_len);
}

/* "Refusal 4 and the work memory look at a quadrant's size." The others look at the frame. */
static uint32_t quadrants_refusal(uint32_t w, uint32_t h, uint32_t s, uint32_t tolerance, uint32_t percentile, size_t first_len,
                                  size_t second_len, size_t offsets_len, size_t grey_len, size_t words_len)
{
    if (bad_size(w, h))
        return 2;
    if (s > MAX_HALVINGS)
        return 3;
    if (too_small(w / 2, h / 2, s))
        return 4;
    if (tolerance > MAX_TOLERANCE)
        return 5;
    if (bad_percentile(percentile))
        return 8;
    if (first_len != raster_bytes(w, h) || second_len != raster_bytes(w, h))
        return 9;
    if (offsets_len < 2 * QUADRANTS)
        return 10;
    if (short_memory(w / 2, h / 2, s, grey_len, words_len))
        return 11;
    return 0;
}

uint32_t ref_quadrants(uint32_t w, uint32_t h, uint32_t s, uint32_t tolerance, uint32_t percentile, const uint8_t *first,
                       size_t first_len, const uint8_t *second, size_t second_len, int32_t *offsets, size_t offsets_len,
                       bool *turned, uint8_t *grey, size_t grey_len, uint64_t *words, size_t words_len)
{
    (void)grey;
    (void)words;
    uint32_t refusal = quadrants_refusal(w, h, s, tolerance, percentile, first_len, second_len, offsets_len, grey_len, words_len);
    if (refusal)
        return refusal;
    for (int quadrant = 0; quadrant < QUADRANTS; quadrant++) {
        struct offset found = quadrant_offset(w, h, s, tolerance, percentile, quadrant, first, second);
        offsets[2 * quadrant] = (int32_t)found.dx;
        offsets[2 * quadrant + 1] = (int32_t)found.dy;
    }
    *turned = ref_turned(offsets);
    return 0;
}

/* ---- The live bracket ---- */

/* "36 signed 32-bit numbers (w, h, s, T, percentile, frames held, then each pair's dx and dy, oldest first, …)": the places. */
enum { HELD_W, HELD_H, HELD_S, HELD_TOLERANCE, HELD_PERCENTILE, HELD_FRAMES, HELD_PAIRS };

/* What they say; pair j is frames j−1 and j, as in a series. */
struct held {
    uint32_t w, h, s, tolerance, percentile, frames;
    struct offset d[MAX_FRAMES];
};

/* The place of pair j's dx; its dy follows. */
static uint32_t pair_place(uint32_t j)
{
    return HELD_PAIRS + 2 * (j - 1);
}

/* "size (a side below 2^(s+2) included), settings, frame number (not 0 to 16)" */
static bool bad_numbers(const struct held *held)
{
    return settings_refusal(held->w, held->h, held->s, by_tolerance(held->tolerance)) != 0 ||
           bad_percentile(held->percentile) || held->frames > MAX_FRAMES;
}

/* "pair offsets in use (beyond 2^(s+1)−1)" */
static bool far_pair(const struct held *held)
{
    int64_t most = 1;
    for (uint32_t i = 0; i <= held->s; i++)
        most *= 2;
    most -= 1;
    bool far = false;
    for (uint32_t j = 1; j < held->frames; j++)
        far = far || llabs(held->d[j].dx) > most || llabs(held->d[j].dy) > most;
    return far;
}

/* False: 16, "held memory whose … break their limits". A number below 0 is taken for one above every limit. Unused ones are "never
 * read". */
static bool read_held(const int32_t *numbers, struct held *held)
{
    held->w = (uint32_t)numbers[HELD_W];
    held->h = (uint32_t)numbers[HELD_H];
    held->s = (uint32_t)numbers[HELD_S];
    held->tolerance = (uint32_t)numbers[HELD_TOLERANCE];
    held->percentile = (uint32_t)numbers[HELD_PERCENTILE];
    held->frames = (uint32_t)numbers[HELD_FRAMES];
    if (bad_numbers(held))
        return false;
    for (uint32_t j = 1; j < held->frames; j++)
        held->d[j] = (struct offset){ numbers[pair_place(j)], numbers[pair_place(j) + 1] };
    return !far_pair(held);
}

/* "unused ones written 0 by every accepted start, add and drop" */
static void write_held(const struct held *held, int32_t *numbers)
{
    numbers[HELD_W] = (int32_t)held->w;
    numbers[HELD_H] = (int32_t)held->h;
    numbers[HELD_S] = (int32_t)held->s;
    numbers[HELD_TOLERANCE] = (int32_t)held->tolerance;
    numbers[HELD_PERCENTILE] = (int32_t)held->percentile;
    numbers[HELD_FRAMES] = (int32_t)held->frames;
    for (uint32_t i = HELD_PAIRS; i < HELD_NUMBERS; i++)
        numbers[i] = 0;
    for (uint32_t j = 1; j < held->frames; j++) {
        numbers[pair_place(j)] = (int32_t)held->d[j].dx;
        numbers[pair_place(j) + 1] = (int32_t)held->d[j].dy;
    }
}

/* "the call that starts a series reads none of the memory, never gives 16 and keeps the usual order" */
uint32_t ref_live_start(uint32_t w, uint32_t h, uint32_t s, uint32_t tolerance, uint32_t percentile, int32_t *held,
                        size_t held_len, uint8_t *newest, size_t newest_len)
{
    (void)newest;
    uint32_t refusal = settings_refusal(w, h, s, by_tolerance(tolerance));
    if (refusal)
        return refusal;
    if (bad_percentile(percentile))
        return 8;
    if (held_len != HELD_NUMBERS || newest_len != pixels(w, h))
        return 9;
    struct held empty = { .w = w, .h = h, .s = s, .tolerance = tolerance, .percentile = percentile };
    write_held(&empty, held);
    return 0;
}

/* "An add aligns at most one pair": the newest frame and the new one, by the new order. */
static struct offset newest_pair(const struct held *held, uint8_t *newest, const struct frame *new)
{
    uint32_t counts[MOST_COUNTS], compared[MOST_COUNTS];
    struct frame last = { held->w, held->h, newest };
    return align(least_move, &last, new, held->s, by_tolerance(held->tolerance), held->percentile,
                 (struct tallies){ counts, compared });
}

/* "It adds a frame at its end". 16 is "tested before all others but the length of the 36 numbers". "A seventeenth frame is refused
 * by 6." */
uint32_t ref_live_add(int32_t *held, size_t held_len, uint8_t *newest, size_t newest_len, const uint8_t *raster,
                      size_t raster_len, uint8_t *grey, size_t grey_len, uint64_t *words, size_t words_len)
{
    (void)grey;
    (void)words;
    struct held now;
    if (held_len != HELD_NUMBERS)
        return 9;
    if (!read_held(held, &now))
        return 16;
    if (now.frames == MAX_FRAMES)
        return 6;
    if (newest_len != pixels(now.w, now.h) || raster_len != raster_bytes(now.w, now.h))
        return 9;
    if (short_memory(now.w, now.h, now.s, grey_len, words_len))
        return 11;
    struct frame new = frame_of_raster(now.w, now.h, raster);
    if (now.frames > 0)
        now.d[now.frames] = newest_pair(&now, newest, &new);
    now.frames++;
    write_held(&now, held);
    for (size_t i = 0; i < newest_len; i++)
        newest[i] = new.grey[i];
    free(new.grey);
    return 0;
}

/* It "drops its oldest"; 16 is also "a drop with nothing held". */
uint32_t ref_live_drop(int32_t *held, size_t held_len, uint8_t *newest, size_t newest_len)
{
    (void)newest;
    struct held now;
    if (held_len != HELD_NUMBERS)
        return 9;
    if (!read_held(held, &now) || now.frames == 0)
        return 16;
    if (newest_len != pixels(now.w, now.h))
        return 9;
    now.frames--;
    for (uint32_t j = 1; j < now.frames; j++)
        now.d[j] = now.d[j + 1];
    write_held(&now, held);
    return 0;
}

/* It "tells the offsets, always against its oldest". */
uint32_t ref_live_offsets(const int32_t *held, size_t held_len, const uint8_t *newest, size_t newest_len, int32_t *offsets,
                          size_t offsets_len, uint32_t *n)
{
    (void)newest;
    struct held now;
    if (held_len != HELD_NUMBERS)
        return 9;
    if (!read_held(held, &now))
        return 16;
    if (newest_len != pixels(now.w, now.h))
        return 9;
    if (offsets_len < 2 * (size_t)now.frames)
        return 10;
    tell_offsets(now.d, 0, now.frames, offsets);
    *n = now.frames;
    return 0;
}

/* ---- Work memory ---- */

size_t ref_grey_needed(uint32_t w, uint32_t h, uint32_t s)
{
    return settings_refusal(w, h, s, by_tolerance(0)) ? 0 : grey_memory(w, h, s);
}

size_t ref_words_needed(uint32_t w, uint32_t h, uint32_t s)
{
    return settings_refusal(w, h, s, by_tolerance(0)) ? 0 : word_memory(w, h);
}

/* ---- Text ---- */

/* Bytes that are read from the beginning on. */
struct text {
    const uint8_t *bytes;
    size_t length, at;
};

static bool next_is(const struct text *text, uint8_t byte)
{
    return text->at < text->length && text->bytes[text->at] == byte;
}

static bool take(struct text *text, uint8_t byte)
{
    bool is = next_is(text, byte);
    text->at += is;
    return is;
}

static bool next_is_digit(const struct text *text)
{
    return text->at < text->length && '0' <= text->bytes[text->at] && text->bytes[text->at] <= '9';
}

/* "A number has one to nine decimal digits; leading zeros are allowed and count among the nine, so 0255 is 255." */
static bool take_number(struct text *text, uint32_t *value)
{
    int digits = 0;
    uint64_t number = 0;
    while (next_is_digit(text) && digits <= MAX_DIGITS) {
        number = 10 * number + (text->bytes[text->at++] - '0');
        digits++;
    }
    *value = (uint32_t)number;
    return 1 <= digits && digits <= MAX_DIGITS;
}

/* ---- P6 ---- */

/* "Whitespace is one or more of the bytes 9, 10, 13 and 32." This takes a single one. */
static bool take_white(struct text *file)
{
    return take(file, 9) || take(file, 10) || take(file, 13) || take(file, 32);
}

/* "a `#` standing where whitespace may stand begins a comment. It runs through the next byte 10 or 13". Of one "cut off by the end
 * of the file" nothing is left that could be the number after it: it "is refused by 1". */
static bool take_comment(struct text *file)
{
    if (!take(file, '#'))
        return false;
    while (file->at < file->length && !take(file, 10) && !take(file, 13))
        file->at++;
    return true;
}

/* Whitespace "From the end of `P6` to the first digit of the largest value": a comment "counts as whitespace". */
static bool take_whitespace(struct text *file)
{
    bool some = false;
    while (take_white(file) || take_comment(file))
        some = true;
    return some;
}

/* "the file begins with the bytes 50 36 hexadecimal, "P6"; then whitespace, width, whitespace, height, whitespace, 255, exactly
 * one whitespace byte, raster" */
static bool take_header(struct text *file, uint32_t *w, uint32_t *h)
{
    uint32_t largest;
    return take(file, 0x50) && take(file, 0x36) && take_whitespace(file) && take_number(file, w) && take_whitespace(file) &&
           take_number(file, h) && take_whitespace(file) && take_number(file, &largest) && largest == LARGEST_VALUE &&
           take_white(file);
}

static uint32_t read_p6(const uint8_t *file, size_t file_len, uint32_t *w, uint32_t *h, size_t *start)
{
    struct text text = { file, file_len, 0 };
    if (!take_header(&text, w, h))
        return 1;
    if (bad_size(*w, *h))
        return 2;
    *start = text.at;
    if (file_len - text.at != raster_bytes(*w, *h))
        return 9;
    return 0;
}

uint32_t ref_p6_size(const uint8_t *file, size_t file_len, uint32_t *w, uint32_t *h)
{
    uint32_t width, height;
    size_t begin;
    uint32_t refusal = read_p6(file, file_len, &width, &height, &begin);
    if (refusal)
        return refusal;
    *w = width;
    *h = height;
    return 0;
}

uint32_t ref_p6_raster(const uint8_t *file, size_t file_len, size_t *start, size_t *length)
{
    uint32_t width, height;
    size_t begin;
    uint32_t refusal = read_p6(file, file_len, &width, &height, &begin);
    if (refusal)
        return refusal;
    *start = begin;
    *length = file_len - begin;
    return 0;
}

/* "The writer uses one byte 10 for each whitespace but a 32 between width and height, no leading zeros, and tells the number of
 * bytes written." Of comments it "emits none". */
uint32_t ref_p6_write(uint32_t w, uint32_t h, const uint8_t *raster, size_t raster_len, uint8_t *out, size_t out_len,
                      size_t *written)
{
    if (bad_size(w, h))
        return 2;
    if (raster_len != raster_bytes(w, h))
        return 9;
    char header[32];
    size_t header_len = (size_t)snprintf(header, sizeof header, "P6\n%u %u\n255\n", (unsigned)w, (unsigned)h);
    if (out_len < header_len + raster_len)
        return 10;
    for (size_t i = 0; i < header_len; i++)
        out[i] = (uint8_t)header[i];
    for (size_t i = 0; i < raster_len; i++)
        out[header_len + i] = raster[i];
    *written = header_len + raster_len;
    return 0;
}

/* ---- Common area, moved frame, blink row ---- */

/* Columns or rows that a side has in common in all frames: from *low up to, not including, *high. Offsets stand 2 apart. */
static void common_side(uint32_t side, uint32_t n, const int32_t *offsets, int64_t *low, int64_t *high)
{
    *low = 0;
    *high = side;
    for (uint32_t k = 0; k < n; k++) {
        int64_t d = offsets[2 * k];
        if (d > *low)
            *low = d;
        if (side + d < *high)
            *high = side + d;
    }
}

/* 12. "A common-area offset is outside −32768 to 32767." */
static bool outside_area(const int32_t *offsets, size_t count)
{
    for (size_t i = 0; i < count; i++)
        if (offsets[i] < MIN_AREA_OFFSET || offsets[i] > MAX_AREA_OFFSET)
            return true;
    return false;
}

/* "columns from max(0, all dx) up to, not including, min(w, all w+dx); rows likewise" */
uint32_t ref_common_area(uint32_t w, uint32_t h, uint32_t n, const int32_t *offsets, size_t offsets_len, uint32_t *left,
                         uint32_t *right, uint32_t *top, uint32_t *bottom)
{
    if (bad_size(w, h))
        return 2;
    if (n == 0 || n > MAX_FRAMES)
        return 6;
    if (offsets_len != 2 * (size_t)n)
        return 9;
    if (outside_area(offsets, offsets_len))
        return 12;
    int64_t low_x, high_x, low_y, high_y;
    common_side(w, n, offsets, &low_x, &high_x);
    common_side(h, n, offsets + 1, &low_y, &high_y);
    if (low_x >= high_x || low_y >= high_y)
        return 13;
    *left = (uint32_t)low_x;
    *right = (uint32_t)high_x;
    *top = (uint32_t)low_y;
    *bottom = (uint32_t)high_y;
    return 0;
}

/* "the shift rule on RGB pixels with 0,0,0 outside" */
uint32_t ref_moved(uint32_t w, uint32_t h, int32_t dx, int32_t dy, const uint8_t *raster, size_t raster_len, uint8_t *out,
                   size_t out_len)
{
    if (bad_size(w, h))
        return 2;
    if (raster_len != raster_bytes(w, h))
        return 9;
    if (out_len < raster_bytes(w, h))
        return 10;
    for (int64_t y = 0; y < h; y++)
        for (int64_t x = 0; x < w; x++)
            for (int64_t c = 0; c < 3; c++) {
                bool inside = in_frame(x - dx, y - dy, w, h);
                out[3 * (y * w + x) + c] = inside ? raster[3 * ((y - dy) * w + (x - dx)) + c] : 0;
            }
    return 0;
}

/* "row y of the first or the second lent raster, as chosen, handed back as part of that raster" */
uint32_t ref_blink_row(uint32_t w, uint32_t h, uint32_t y, bool second, const uint8_t *first_raster, size_t first_len,
                       const uint8_t *second_raster, size_t second_len, size_t *start, size_t *length)
{
    (void)second;
    (void)first_raster;
    (void)second_raster;
    if (bad_size(w, h))
        return 2;
    if (first_len != raster_bytes(w, h) || second_len != raster_bytes(w, h))
        return 9;
    if (y >= h)
        return 14;
    *start = raster_bytes(w, y);
    *length = raster_bytes(w, 1);
    return 0;
}

/* ---- The program `bracket` ---- */

struct settings {
    uint32_t s, tolerance, percentile;
};

/* "A line that isn't three numbers of one to nine digits with a 32 between prints only `settings`"; "The settings line ends at a
 * byte 10 or at the end of input." */
static bool read_settings(const uint8_t *input, size_t input_len, struct settings *settings)
{
    struct text line = { input, input_len, 0 };
    return take_number(&line, &settings->s) && take(&line, 32) && take_number(&line, &settings->tolerance) &&
           take(&line, 32) && take_number(&line, &settings->percentile) && (line.at == line.length || next_is(&line, 10));
}

/* A file as `bracket` has read it, and what its header says. */
struct picture {
    uint32_t refusal, w, h;
    const uint8_t *raster;
    size_t raster_len;
};

/* "65536 bytes at most each; a missing or longer file counts as empty" */
static struct picture read_picture(const uint8_t *file, size_t file_len)
{
    struct picture picture = { 0, 0, 0, file, 0 };
    if (file_len > BRACKET_FILE)
        file_len = 0;
    size_t start = 0;
    picture.refusal = ref_p6_size(file, file_len, &picture.w, &picture.h);
    if (!picture.refusal) {
        ref_p6_raster(file, file_len, &start, &picture.raster_len);
        picture.raster = file + start;
    }
    return picture;
}

/* The pair's number: "a second frame of another size counts as 9", after every lower number that applies. "a second pair of calls
 * keeps [Ward's order]. `bracket` uses that one"; it prints no compared number. */
static uint32_t align_pictures(struct settings set, const struct picture *first, const struct picture *second, int32_t *dx,
                               int32_t *dy, uint32_t counts[BRACKET_COUNTS])
{
    uint32_t lower = settings_refusal(first->w, first->h, set.s, by_tolerance(set.tolerance));
    if (lower)
        return lower;
    if (bad_percentile(set.percentile))
        return 8;
    if (first->w != second->w || first->h != second->h)
        return 9;
    uint32_t compared[BRACKET_COUNTS];
    return ref_pair_ward(first->w, first->h, set.s, set.tolerance, set.percentile, first->raster, first->raster_len,
                         second->raster, second->raster_len, dx, dy, counts, BRACKET_COUNTS, compared, BRACKET_COUNTS, NULL,
                         BRACKET_GREY, NULL, BRACKET_WORDS);
}

/* "offset dx dy, then a line a level, coarsest first, the number of halvings before the colon, the nine counts after it" */
static size_t print_alignment(uint32_t s, int32_t dx, int32_t dy, const uint32_t *counts, char *text)
{
    char *end = text + sprintf(text, "offset %ld %ld\n", (long)dx, (long)dy);
    for (uint32_t level = 0; level <= s; level++) {
        end += sprintf(end, "%lu:", (unsigned long)(s - level));
        for (int i = 0; i < CANDIDATES; i++)
            end += sprintf(end, " %lu", (unsigned long)*counts++);
        end += sprintf(end, "\n");
    }
    return (size_t)(end - text);
}

/* "A refusal prints only `refused`, a 32 and its number: the first file's, else the second's, else the pair's" */
static size_t print_answer(struct settings set, const struct picture *first, const struct picture *second, char *text)
{
    int32_t dx = 0, dy = 0;
    uint32_t counts[BRACKET_COUNTS];
    uint32_t refusal = first->refusal;
    if (!refusal)
        refusal = second->refusal;
    if (!refusal)
        refusal = align_pictures(set, first, second, &dx, &dy, counts);
    if (refusal)
        return (size_t)sprintf(text, "refused %lu\n", (unsigned long)refusal);
    return print_alignment(set.s, dx, dy, counts, text);
}

size_t ref_bracket(const uint8_t *input, size_t input_len, const uint8_t *first, size_t first_len, const uint8_t *second,
                   size_t second_len, uint8_t *out)
{
    char text[REF_BRACKET_ROOM];
    struct settings settings;
    size_t length;
    if (read_settings(input, input_len, &settings)) {
        struct picture picture1 = read_picture(first, first_len), picture2 = read_picture(second, second_len);
        length = print_answer(settings, &picture1, &picture2, text);
    } else {
        length = (size_t)sprintf(text, "settings\n");
    }
    for (size_t i = 0; i < length; i++)
        out[i] = (uint8_t)text[i];
    return length;
}
