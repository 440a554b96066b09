/* A careful C program of the same rules, written for speed: plain C for the same instruction set as the archive
 * (x86-64 with SSE2), loops that the compiler can take many bytes at a time, one pass for each step, bitmaps in
 * words of 64 pixels, shifted while they are compared, differing and compared pixels counted in the same pass, 1 bits
 * added from the table of bytes. It tests no input. (Bytes are read as words of a little-endian machine.) */
#include "careful.h"

#include <string.h>

enum { WORD_BITS = 64, CANDIDATES = 9, MOST_LEVELS = 9, QUADRANTS = 4, GREYS = 256, TWOS = 16 };

/* A step is kept a function of its own, so that a profile tells it apart. */
#define STEP __attribute__((noinline)) static

/* A part of a step is no function of its own: it is made for the numbers that its caller wants, and no call is paid a word. */
#define PART __attribute__((always_inline)) static inline

/* The 1 bits of each byte. */
#define ONES_2(n) n, n + 1, n + 1, n + 2
#define ONES_4(n) ONES_2(n), ONES_2(n + 1), ONES_2(n + 1), ONES_2(n + 2)
#define ONES_6(n) ONES_4(n), ONES_4(n + 1), ONES_4(n + 1), ONES_4(n + 2)
static const uint8_t ONES[256] = {ONES_6(0), ONES_6(1), ONES_6(1), ONES_6(2)};

/* The bitmaps of one frame of a level. Bits past the row's end are 0. */
struct planes {
    uint64_t *threshold, *exclusion;
};

struct offset {
    int32_t dx, dy;
};

/* A level's frame size, and its words a row. */
struct size {
    uint32_t w, h;
    size_t row;
};

static struct size size_of(uint32_t w, uint32_t h)
{
    struct size z = {w, h, (w + WORD_BITS - 1) / WORD_BITS};
    return z;
}

/* 32 pixels at a time: 16 twos, each of them three numbers of 16 bits (RG, BR, GB), which take no more than 16 bits
 * when weighted and need no byte to be moved. */
static void grey_block(const uint8_t *restrict raster, uint8_t *restrict grey)
{
    uint16_t halves[3 * TWOS], rg[TWOS], br[TWOS], gb[TWOS], out[TWOS];
    memcpy(halves, raster, sizeof halves);
    for (int k = 0; k < TWOS; k++) {
        rg[k] = halves[3 * k];
        br[k] = halves[3 * k + 1];
        gb[k] = halves[3 * k + 2];
    }
    for (int k = 0; k < TWOS; k++) {
        uint16_t left = (uint16_t)(54 * (rg[k] & 255) + 183 * (rg[k] >> 8) + 19 * (br[k] & 255));
        uint16_t right = (uint16_t)(54 * (br[k] >> 8) + 183 * (gb[k] & 255) + 19 * (gb[k] >> 8));
        out[k] = (uint16_t)(left >> 8 | (right & 0xFF00));
    }
    memcpy(grey, out, sizeof out);
}

STEP void to_grey(const uint8_t *raster, size_t n, uint8_t *grey)
{
    size_t i = 0;
    for (; i + 2 * TWOS <= n; i += 2 * TWOS)
        grey_block(raster + 3 * i, grey + i);
    for (; i < n; i++)
        grey[i] = (uint8_t)((54u * raster[3 * i] + 183u * raster[3 * i + 1] + 19u * raster[3 * i + 2]) >> 8);
}

static uint8_t least(uint8_t a, uint8_t b) { return a < b ? a : b; }

static uint8_t most(uint8_t a, uint8_t b) { return a < b ? b : a; }

/* The n pixels under two rows: of each four the second smallest. */
static void halve_row(const uint8_t *restrict top, const uint8_t *restrict bottom, size_t n, uint8_t *restrict out)
{
    for (size_t x = 0; x < n; x++) {
        uint8_t a = top[2 * x], b = top[2 * x + 1], c = bottom[2 * x], d = bottom[2 * x + 1];
        uint8_t low1 = least(a, c), low2 = least(b, d), high1 = most(a, c), high2 = most(b, d);
        out[x] = least(most(low1, low2), least(high1, high2));
    }
}

STEP void halve(const uint8_t *grey, uint32_t w, uint32_t h, uint8_t *out)
{
    for (size_t y = 0; y < h / 2; y++)
        halve_row(grey + 2 * y * w, grey + (2 * y + 1) * w, w / 2, out + y * (w / 2));
}

static uint64_t load_word(const uint8_t *bytes)
{
    uint64_t v;
    memcpy(&v, bytes, sizeof v);
    return v;
}

/* Four tables in turn, so that equal neighbours do not wait for each other. */
static void histogram(const uint8_t *grey, size_t n, uint32_t counts[GREYS])
{
    uint32_t part[4][GREYS] = {{0}};
    size_t i = 0;
    for (; i + 8 <= n; i += 8)
        for (size_t k = 0; k < 8; k++)
            part[k % 4][grey[i + k]]++;
    for (; i < n; i++)
        part[0][grey[i]]++;
    for (int k = 0; k < GREYS; k++)
        counts[k] = part[0][k] + part[1][k] + part[2][k] + part[3][k];
}

STEP uint8_t threshold_of(const uint8_t *grey, size_t n, uint32_t percentile)
{
    uint32_t counts[GREYS];
    uint64_t below = 0;
    histogram(grey, n, counts);
    for (int v = 0; v < GREYS; v++) {
        below += counts[v];
        if (100 * below >= percentile * (uint64_t)n)
            return (uint8_t)v;
    }
    return GREYS - 1;
}

/* Where bit p of the mask is 1, bits p and p + s exchanged. */
static uint64_t exchange(uint64_t v, uint64_t mask, unsigned s)
{
    uint64_t t = (v ^ v >> s) & mask;
    return v ^ t ^ t << s;
}

/* The place of pixel i among the columns of a word: its byte is i % 8, its bit i / 8. */
#define EIGHT(v) v, v, v, v, v, v, v, v
static const uint8_t COLUMN[WORD_BITS] = {EIGHT(1),  EIGHT(2),  EIGHT(4),  EIGHT(8),
                                          EIGHT(16), EIGHT(32), EIGHT(64), EIGHT(128)};

/* 64 pixels as one word, bit i for pixel i: 1 where the grey value less `low` (a byte, round the end) is above `span`.
 * The flags laid over each other are the word as 8 by 8 bits by columns; three exchanges turn columns into rows.
 * (Whether the greater of the two is `span` is one instruction for 16 bytes; `>` on bytes is none.) */
static uint64_t pack_word(const uint8_t *restrict grey, uint8_t low, uint8_t span)
{
    uint8_t flags[WORD_BITS];
    uint64_t v = 0;
    for (int i = 0; i < WORD_BITS; i++)
        flags[i] = (uint8_t)-(most((uint8_t)(grey[i] - low), span) != span) & COLUMN[i];
    for (int k = 0; k < WORD_BITS; k += 8)
        v |= load_word(flags + k);
    v = exchange(v, 0x00AA00AA00AA00AAu, 7);
    v = exchange(v, 0x0000CCCC0000CCCCu, 14);
    return exchange(v, 0x00000000F0F0F0F0u, 28);
}

/* A row's bitmaps. Threshold bit: grey above t. Exclusion bit: grey outside low..high. */
static void pack_row(const uint8_t *grey, uint32_t w, uint8_t t, uint8_t low, uint8_t high, uint64_t *threshold,
                     uint64_t *exclusion)
{
    uint8_t last[WORD_BITS];
    size_t full = w / WORD_BITS, rest = w % WORD_BITS;
    for (size_t k = 0; k < full; k++) {
        threshold[k] = pack_word(grey + k * WORD_BITS, 0, t);
        exclusion[k] = pack_word(grey + k * WORD_BITS, low, (uint8_t)(high - low));
    }
    if (rest == 0)
        return;
    memset(last, t, sizeof last); /* t has both bits 0 */
    memcpy(last, grey + full * WORD_BITS, rest);
    threshold[full] = pack_word(last, 0, t);
    exclusion[full] = pack_word(last, low, (uint8_t)(high - low));
}

STEP void pack(const uint8_t *grey, struct size z, uint32_t percentile, uint32_t tolerance, struct planes out)
{
    uint8_t t = threshold_of(grey, (size_t)z.w * z.h, percentile);
    uint8_t low = (uint8_t)(t > tolerance ? t - tolerance : 0);
    uint8_t high = (uint8_t)(t + tolerance < 255 ? t + tolerance : 255);
    for (size_t y = 0; y < z.h; y++)
        pack_row(grey + y * z.w, z.w, t, low, high, out.threshold + y * z.row, out.exclusion + y * z.row);
}

PART uint32_t ones(uint64_t v)
{
    return ONES[v & 255] + ONES[v >> 8 & 255] + ONES[v >> 16 & 255] + ONES[v >> 24 & 255] + ONES[v >> 32 & 255]
           + ONES[v >> 40 & 255] + ONES[v >> 48 & 255] + ONES[v >> 56];
}

/* What two frames' bitmaps tell: how many pixels differ, out of how many that were compared. */
struct tally {
    uint32_t differing, compared;
};

/* The program before Paper 2 counted the differing ones alone, and left `compared` 0. Who counts says by a constant which
 * of the two it is. */
enum numbers { DIFFERING, BOTH };

/* Adds one word: pixels kept by both exclusion words are compared, those with unequal threshold bits differ. */
PART void add_word(struct tally *sum, enum numbers wanted, uint64_t t1, uint64_t e1, uint64_t t2, uint64_t e2)
{
    uint64_t kept = e1 & e2;
    if (kept == 0)
        return;
    sum->differing += ones((t1 ^ t2) & kept);
    if (wanted == BOTH)
        sum->compared += ones(kept);
}

/* Words of a row against the words of another one, as they stand. */
PART void add_whole(struct tally *sum, enum numbers wanted, const uint64_t *t1, const uint64_t *e1, const uint64_t *t2,
                    const uint64_t *e2, size_t n)
{
    for (size_t k = 0; k < n; k++)
        add_word(sum, wanted, t1[k], e1[k], t2[k], e2[k]);
}

/* The same, where each word of the second row is put together from the top `up` bits of a word and the lower bits
 * of the next: n words of the first row, n + 1 of the second, 0 < up < 64. */
PART void add_joined(struct tally *sum, enum numbers wanted, const uint64_t *t1, const uint64_t *e1, const uint64_t *t2,
                     const uint64_t *e2, size_t n, unsigned up)
{
    uint64_t t = t2[0], e = e2[0];
    for (size_t k = 0; k < n; k++) {
        uint64_t next_t = t2[k + 1], next_e = e2[k + 1];
        add_word(sum, wanted, t1[k], e1[k], t >> (WORD_BITS - up) | next_t << up, e >> (WORD_BITS - up) | next_e << up);
        t = next_t;
        e = next_e;
    }
}

/* A row against another one moved right by d. */
PART void add_right(struct tally *sum, enum numbers wanted, const uint64_t *t1, const uint64_t *e1, const uint64_t *t2,
                    const uint64_t *e2, size_t n, uint32_t d)
{
    size_t q = d / WORD_BITS;
    unsigned r = d % WORD_BITS;
    if (q >= n)
        return;
    if (r == 0) {
        add_whole(sum, wanted, t1 + q, e1 + q, t2, e2, n - q);
        return;
    }
    add_word(sum, wanted, t1[q], e1[q], t2[0] << r, e2[0] << r);
    add_joined(sum, wanted, t1 + q + 1, e1 + q + 1, t2, e2, n - q - 1, r);
}

/* A row against another one moved left by d. */
PART void add_left(struct tally *sum, enum numbers wanted, const uint64_t *t1, const uint64_t *e1, const uint64_t *t2,
                   const uint64_t *e2, size_t n, uint32_t d)
{
    size_t q = d / WORD_BITS, last = n - q - 1;
    unsigned r = d % WORD_BITS;
    if (q >= n)
        return;
    if (r == 0) {
        add_whole(sum, wanted, t1, e1, t2 + q, e2 + q, n - q);
        return;
    }
    add_joined(sum, wanted, t1, e1, t2 + q, e2 + q, last, WORD_BITS - r);
    add_word(sum, wanted, t1[last], e1[last], t2[n - 1] >> r, e2[n - 1] >> r);
}

/* Two frames at an offset. */
PART struct tally tally_at(enum numbers wanted, struct planes first, struct planes second, struct size z, struct offset o)
{
    int32_t top = o.dy > 0 ? o.dy : 0, end = o.dy < 0 ? (int32_t)z.h + o.dy : (int32_t)z.h;
    struct tally sum = {0, 0};
    for (int32_t y = top; y < end; y++) {
        size_t a = (size_t)y * z.row, b = (size_t)(y - o.dy) * z.row;
        const uint64_t *t1 = first.threshold + a, *e1 = first.exclusion + a;
        const uint64_t *t2 = second.threshold + b, *e2 = second.exclusion + b;
        if (o.dx >= 0)
            add_right(&sum, wanted, t1, e1, t2, e2, z.row, (uint32_t)o.dx);
        else
            add_left(&sum, wanted, t1, e1, t2, e2, z.row, (uint32_t)-o.dx);
    }
    return sum;
}

STEP struct tally count_both(struct planes first, struct planes second, struct size z, struct offset o)
{
    return tally_at(BOTH, first, second, z, o);
}

STEP struct tally count_differing(struct planes first, struct planes second, struct size z, struct offset o)
{
    return tally_at(DIFFERING, first, second, z, o);
}

/* The difference count of two frames at an offset and, where there is room for it, the compared number. */
static void count_at(struct planes first, struct planes second, struct size z, struct offset o, uint32_t *count,
                     uint32_t *compared)
{
    struct tally sum = compared == NULL ? count_differing(first, second, z, o) : count_both(first, second, z, o);
    *count = sum.differing;
    if (compared != NULL)
        *compared = sum.compared;
}

void careful_difference(uint32_t w, uint32_t h, int32_t dx, int32_t dy, uint64_t *threshold1, uint64_t *exclusion1,
                        uint64_t *threshold2, uint64_t *exclusion2, uint32_t *count, uint32_t *compared)
{
    struct planes first = {threshold1, exclusion1}, second = {threshold2, exclusion2};
    count_at(first, second, size_of(w, h), (struct offset){dx, dy}, count, compared);
}

/* What follows the first k numbers, where there are any. */
static uint32_t *after(uint32_t *numbers, size_t k) { return numbers == NULL ? NULL : numbers + k; }

/* The candidates as equal counts prefer them: in Ward's order, and by the least move. */
static const uint8_t WARD[CANDIDATES] = {0, 1, 2, 3, 4, 5, 6, 7, 8}, LEAST_MOVE[CANDIDATES] = {4, 1, 7, 3, 5, 0, 2, 6, 8};

static uint8_t first_least(const uint32_t *counts, const uint8_t *order)
{
    uint8_t best = order[0];
    for (int k = 1; k < CANDIDATES; k++)
        if (counts[order[k]] < counts[best])
            best = order[k];
    return best;
}

static struct offset candidate(struct offset centre, int k)
{
    struct offset o = {centre.dx + k / 3 - 1, centre.dy + k % 3 - 1};
    return o;
}

/* The nine counts around a centre, the compared numbers where there is room for them, and the first least count. */
static struct offset choose(struct planes first, struct planes second, struct size z, struct offset centre,
                            const uint8_t *order, uint32_t *counts, uint32_t *compared)
{
    for (int k = 0; k < CANDIDATES; k++)
        count_at(first, second, z, candidate(centre, k), &counts[k], after(compared, (size_t)k));
    return candidate(centre, first_least(counts, order));
}

/* A frame's levels stand one after another, the finest first. */
static size_t level_pixels(uint32_t w, uint32_t h, uint32_t levels)
{
    size_t n = 0;
    for (uint32_t k = 0; k < levels; k++)
        n += (size_t)(w >> k) * (h >> k);
    return n;
}

static void halve_all(uint32_t w, uint32_t h, uint32_t s, uint8_t *levels)
{
    for (uint32_t k = 0; k < s; k++) {
        size_t n = (size_t)(w >> k) * (h >> k);
        halve(levels, w >> k, h >> k, levels + n);
        levels += n;
    }
}

static void build_levels(const uint8_t *raster, uint32_t w, uint32_t h, uint32_t s, uint8_t *levels)
{
    to_grey(raster, (size_t)w * h, levels);
    halve_all(w, h, s, levels);
}

/* Of w by h pixels within a raster whose rows are longer: no row is copied. */
static void build_part(const uint8_t *raster, size_t row, uint32_t w, uint32_t h, uint32_t s, uint8_t *levels)
{
    for (size_t y = 0; y < h; y++)
        to_grey(raster + 3 * y * row, w, levels + y * w);
    halve_all(w, h, s, levels);
}

/* Two frames' levels, from the coarsest to the finest. */
static struct offset align(const uint8_t *first, const uint8_t *second, uint32_t w, uint32_t h, uint32_t s,
                           uint32_t tolerance, uint32_t percentile, const uint8_t *order, uint32_t *counts,
                           uint32_t *compared, uint64_t *words)
{
    struct offset o = {0, 0};
    for (uint32_t k = s + 1; k-- > 0;) {
        struct size z = size_of(w >> k, h >> k);
        size_t n = z.row * z.h, at = level_pixels(w, h, k);
        struct planes one = {words, words + n}, two = {words + 2 * n, words + 3 * n};
        struct offset centre = {2 * o.dx, 2 * o.dy};
        pack(first + at, z, percentile, tolerance, one);
        pack(second + at, z, percentile, tolerance, two);
        o = choose(one, two, z, centre, order, counts, compared);
        counts += CANDIDATES;
        compared = after(compared, CANDIDATES);
    }
    return o;
}

void careful_pair(uint32_t w, uint32_t h, uint32_t s, uint32_t tolerance, uint32_t percentile, const uint8_t *first,
                  const uint8_t *second, int32_t *dx, int32_t *dy, uint32_t *counts, uint32_t *compared, uint8_t *grey,
                  uint64_t *words)
{
    uint8_t *other = grey + level_pixels(w, h, s + 1);
    build_levels(first, w, h, s, grey);
    build_levels(second, w, h, s, other);
    struct offset o = align(grey, other, w, h, s, tolerance, percentile, WARD, counts, compared, words);
    *dx = o.dx;
    *dy = o.dy;
}

/* Whether two of four moves differ by more than 1 on the axis where the first number stands. */
static int far_apart(const int32_t *offsets)
{
    int32_t low = offsets[0], high = offsets[0];
    for (int k = 2; k < 2 * QUADRANTS; k += 2) {
        low = offsets[k] < low ? offsets[k] : low;
        high = offsets[k] > high ? offsets[k] : high;
    }
    return high - low > 1;
}

int careful_quadrants(uint32_t w, uint32_t h, uint32_t s, uint32_t tolerance, uint32_t percentile, const uint8_t *first,
                      const uint8_t *second, int32_t *offsets, uint8_t *grey, uint64_t *words)
{
    uint32_t half_w = w / 2, half_h = h / 2, counts[CANDIDATES * MOST_LEVELS];
    uint8_t *other = grey + level_pixels(half_w, half_h, s + 1);
    for (int k = 0; k < QUADRANTS; k++) {
        size_t left = k % 2 ? w - half_w : 0, top = k / 2 ? h - half_h : 0, at = 3 * (top * w + left);
        build_part(first + at, w, half_w, half_h, s, grey);
        build_part(second + at, w, half_w, half_h, s, other);
        struct offset o = align(grey, other, half_w, half_h, s, tolerance, percentile, LEAST_MOVE, counts, NULL, words);
        offsets[2 * k] = o.dx;
        offsets[2 * k + 1] = o.dy;
    }
    return far_apart(offsets) || far_apart(offsets + 1);
}

/* Pair offsets, of which pair j stands in frame j's slot, summed about frame r. */
static void sum_about(uint32_t n, uint32_t r, int32_t *offsets)
{
    int32_t x = 0, y = 0;
    for (uint32_t k = r; k > 0; k--) {
        int32_t dx = offsets[2 * k], dy = offsets[2 * k + 1];
        offsets[2 * k] = x;
        offsets[2 * k + 1] = y;
        x -= dx;
        y -= dy;
    }
    offsets[0] = x;
    offsets[1] = y;
    for (uint32_t k = r + 1; k < n; k++) {
        offsets[2 * k] += k == r + 1 ? 0 : offsets[2 * k - 2];
        offsets[2 * k + 1] += k == r + 1 ? 0 : offsets[2 * k - 1];
    }
}

void careful_series(uint32_t w, uint32_t h, uint32_t s, uint32_t tolerance, uint32_t n, uint32_t r,
                    const uint32_t *percentiles, const uint8_t *rasters, int32_t *offsets, uint32_t *counts,
                    uint32_t *compared, uint8_t *grey, uint64_t *words)
{
    uint8_t *levels[2] = {grey, grey + level_pixels(w, h, s + 1)}; /* of even and of odd frames: each built once */
    build_levels(rasters, w, h, s, levels[0]);
    for (uint32_t k = 1; k < n; k++) {
        size_t at = (size_t)(k - 1) * CANDIDATES * (s + 1);
        build_levels(rasters + (size_t)k * 3 * w * h, w, h, s, levels[k % 2]);
        struct offset o = align(levels[(k - 1) % 2], levels[k % 2], w, h, s, tolerance, percentiles[k - 1], WARD,
                                counts + at, after(compared, at), words);
        offsets[2 * k] = o.dx;
        offsets[2 * k + 1] = o.dy;
    }
    sum_about(n, r, offsets);
}
