/* The reference itself against what documents 01 and 02 print: their worked examples, also those that the library proves, and the
 * table of numbers; and a tie, compared numbers, bands, comments, quadrants and a live bracket worked by hand. Prints what it
 * compared; exit status 1 when something differs. */
#include "reference.h"

#include <stdio.h>
#include <stdlib.h>
#include <string.h>

static int checked, different;

static void expect(const char *what, bool holds)
{
    checked++;
    if (!holds) {
        different++;
        printf("differs: %s\n", what);
    }
}

static uint8_t grey_of_pixel(uint8_t red, uint8_t green, uint8_t blue)
{
    uint8_t raster[3] = { red, green, blue }, grey = 1;
    expect("a pixel is accepted", ref_grey(1, 1, raster, 3, &grey, 1) == 0);
    return grey;
}

static void check_pixels(void)
{
    expect("grey of white", grey_of_pixel(255, 255, 255) == 255);
    expect("grey of red", grey_of_pixel(255, 0, 0) == 53);
    expect("grey of green", grey_of_pixel(0, 255, 0) == 182);
    expect("grey of blue", grey_of_pixel(0, 0, 255) == 18);
    uint8_t half = 0, four[4] = { 7, 3, 9, 3 };
    expect("second smallest of 7, 3, 9, 3", ref_halve(2, 2, four, 4, &half, 1) == 0 && half == 3);
}

static uint8_t threshold_at(uint32_t percentile)
{
    uint8_t grey[4] = { 1, 2, 3, 4 }, t = 0;
    expect("a threshold is accepted", ref_threshold(2, 2, percentile, grey, 4, &t) == 0);
    return t;
}

static void check_thresholds(void)
{
    expect("frame 1, 2, 3, 4 at P = 50", threshold_at(50) == 2);
    expect("frame 1, 2, 3, 4 at P = 17", threshold_at(17) == 1);
    expect("frame 1, 2, 3, 4 at P = 83", threshold_at(83) == 4);
}

/* A raster with R = G = B: letters a, b and c stand for these tones. */
static void lettered(const char *letters, const uint8_t tones[3], uint8_t *raster)
{
    for (size_t i = 0; i < 3 * strlen(letters); i++)
        raster[i] = tones[letters[i / 3] - 'a'];
}

static const uint8_t printed_tones[3] = { 10, 20, 90 };

/* The printed case. */
static const char printed_first[] = "aaccaaccaaccabcc", printed_second[] = "caaccaaccaaccabc";

/* A P6 file of 4 by 4. */
static size_t lettered_file(const char *letters, const uint8_t tones[3], uint8_t *file)
{
    uint8_t raster[48];
    size_t written = 0;
    lettered(letters, tones, raster);
    expect("a file is written", ref_p6_write(4, 4, raster, 48, file, 100, &written) == 0);
    return written;
}

static void check_printed(const char *what, const uint8_t first_tones[3])
{
    static const char printed[] = "offset -1 -1\n0: 0 0 0 5 7 6 8 10 8\n";
    uint8_t first[100], second[100], out[REF_BRACKET_ROOM];
    size_t first_len = lettered_file(printed_first, first_tones, first);
    size_t second_len = lettered_file(printed_second, printed_tones, second);
    size_t length = ref_bracket((const uint8_t *)"0 0 50\n", 7, first, first_len, second, second_len, out);
    expect(what, length == sizeof printed - 1 && memcmp(out, printed, length) == 0);
}

/* ---- The two orders ---- */

enum { MOST_PIXELS = 256, MOST_COUNTS = 27, AMPLE = 1000 };

/* Two square frames, one raster after another, and the counts and compared numbers of their pair at T = 0 or b = 0, P = 50. */
struct square {
    uint32_t side, s, counts[MOST_COUNTS], compared[MOST_COUNTS];
    uint8_t rasters[2 * 3 * MOST_PIXELS];
};

static size_t raster_bytes(const struct square *square)
{
    return (size_t)3 * square->side * square->side;
}

static bool right_numbers(const struct square *square, const uint32_t *counts, const uint32_t *compared)
{
    size_t bytes = 9 * (square->s + 1) * sizeof *counts;
    return memcmp(counts, square->counts, bytes) == 0 && memcmp(compared, square->compared, bytes) == 0;
}

static bool pair_gives(__typeof__(ref_pair) *pair, const struct square *square, int32_t dx, int32_t dy)
{
    uint32_t side = square->side, counts[MOST_COUNTS], compared[MOST_COUNTS];
    int32_t x = 99, y = 99;
    size_t bytes = raster_bytes(square);
    uint32_t number = pair(side, side, square->s, 0, 50, square->rasters, bytes, square->rasters + bytes, bytes, &x, &y, counts,
                           MOST_COUNTS, compared, MOST_COUNTS, NULL, AMPLE, NULL, AMPLE);
    return number == 0 && x == dx && y == dy && right_numbers(square, counts, compared);
}

static bool series_gives(__typeof__(ref_series) *series, const struct square *square, int32_t dx, int32_t dy)
{
    uint32_t side = square->side, percentile = 50, counts[MOST_COUNTS], compared[MOST_COUNTS];
    int32_t offsets[4] = { 99, 99, 99, 99 };
    uint32_t number = series(side, side, square->s, 0, 2, 0, &percentile, 1, square->rasters, 2 * raster_bytes(square), offsets, 4,
                             counts, MOST_COUNTS, compared, MOST_COUNTS, NULL, AMPLE, NULL, AMPLE);
    return number == 0 && offsets[0] == 0 && offsets[1] == 0 && offsets[2] == dx && offsets[3] == dy &&
           right_numbers(square, counts, compared);
}

/* "With b=0 it equals T=0." */
static void expect_least_move(const char *what, const struct square *square, int32_t dx, int32_t dy)
{
    expect(what, pair_gives(ref_pair, square, dx, dy) && series_gives(ref_series, square, dx, dy));
    expect(what, pair_gives(ref_pair_band, square, dx, dy) && series_gives(ref_series_band, square, dx, dy));
}

static void expect_kept(const char *what, const struct square *square, int32_t dx, int32_t dy)
{
    expect(what, pair_gives(ref_pair_ward, square, dx, dy) && series_gives(ref_series_ward, square, dx, dy));
}

static struct square lettered_square(uint32_t side, uint32_t s, const char *first, const char *second)
{
    struct square square = { .side = side, .s = s };
    lettered(first, printed_tones, square.rasters);
    lettered(second, printed_tones, square.rasters + raster_bytes(&square));
    return square;
}

/* "its printed case is unchanged": by the kept call. Its first three counts tie. The medians are b: one pixel of each frame is left
 * out, (1,3) of the first and (2,3) of the second, which lie on each other at (-1,0). So compared are the 9, 12 or 16 pixels that
 * overlap, less those of the two that are among them. */
static void check_printed_orders(void)
{
    static const uint32_t counts[9] = { 0, 0, 0, 5, 7, 6, 8, 10, 8 };
    static const uint32_t compared[9] = { 9 - 1, 12 - 1, 9 - 1, 12 - 1, 16 - 2, 12 - 1, 9 - 1, 12 - 2, 9 - 1 };
    struct square printed = lettered_square(4, 0, printed_first, printed_second);
    memcpy(printed.counts, counts, sizeof counts);
    memcpy(printed.compared, compared, sizeof compared);
    expect_kept("the printed case by the kept call: (-1,-1)", &printed, -1, -1);
    expect_least_move("the printed case by the least move: (-1,0)", &printed, -1, 0);
}

/* "the flat plate gives (0,0) by the new pair, (−7,−7) by the kept one" */
static void check_flat(void)
{
    struct square flat = { .side = 16, .s = 2 };
    memset(flat.rasters, 77, sizeof flat.rasters);
    expect_kept("the flat plate by the kept call: (-7,-7), 27 counts of 0, out of 0", &flat, -7, -7);
    expect_least_move("the flat plate by the least move: (0,0), 27 counts of 0, out of 0", &flat, 0, 0);
}

/* The median is b, which is excluded: a and c differ where one lies on the other, and no others are compared. Halved to 4 by 4,
 * (1,1) alone has no difference.
 * So the centre is (2,2), and there the steps (0,-1) and (1,0) tie at one difference. Ward's order has (0,-1) first, the least move
 * (1,0). With dx and dy exchanged, by its last in place of its first, or by nearness to (0,0) it would take (0,-1) too. */
static void check_tie(void)
{
    static const uint32_t counts[18] = { 1, 2, 1, 1, 1, 2, 1, 1, 0, 3, 4, 3, 1, 2, 2, 2, 1, 2 };
    struct square tie = lettered_square(8, 1,
                                        "abbbabbb"
                                        "abbbbabb"
                                        "bbbabbbb"
                                        "bbabbabb"
                                        "bbabbbbb"
                                        "bbababbb"
                                        "bbbbabbb"
                                        "bbbbbbbb",
                                        "bbcbbbbb"
                                        "bcccbbbb"
                                        "bccbccbb"
                                        "bbcccbbb"
                                        "bbbbbbbb"
                                        "bbbbbbbb"
                                        "bbbbbbbb"
                                        "bbbbbbbb");
    memcpy(tie.counts, counts, sizeof counts);
    memcpy(tie.compared, counts, sizeof counts);
    expect_kept("a tie around (2,2) by the kept call: (2,1)", &tie, 2, 1);
    expect_least_move("a tie around (2,2) by the least move: (3,2)", &tie, 3, 2);
}

/* ---- Limits ---- */

/* The number of a pair whose lengths are right, whatever its sizes and settings. */
static uint32_t pair_number(uint32_t w, uint32_t h, uint32_t s, uint32_t tolerance)
{
    static uint8_t raster[3 * 16 * 16];
    uint32_t counts[27], compared[27];
    int32_t dx, dy;
    size_t length = (size_t)3 * w * h;
    return ref_pair(w, h, s, tolerance, 50, raster, length, raster, length, &dx, &dy, counts, 27, compared, 27, NULL, 100000, NULL,
                    100000);
}

static uint32_t series_number(uint32_t n, int32_t offsets[32])
{
    static uint8_t rasters[17 * 48];
    uint32_t percentiles[16], counts[144], compared[144];
    for (int i = 0; i < 16; i++)
        percentiles[i] = 50;
    return ref_series(4, 4, 0, 0, n, 0, percentiles, n - 1, rasters, n * 48, offsets, 32, counts, 144, compared, 144, NULL,
                      32, NULL, 24);
}

static void check_limits(void)
{
    int32_t offsets[32] = { 5, 5 };
    expect("side 16 with s = 2 accepted", pair_number(16, 16, 2, 0) == 0);
    expect("width 15 with s = 2 refused by 4", pair_number(15, 16, 2, 0) == 4);
    expect("height 15 with s = 2 refused by 4", pair_number(16, 15, 2, 0) == 4);
    expect("T = 64 accepted", pair_number(16, 16, 2, 64) == 0);
    expect("T = 65 refused by 5", pair_number(16, 16, 2, 65) == 5);
    expect("N = 1 accepted: offset (0,0)", series_number(1, offsets) == 0 && offsets[0] == 0 && offsets[1] == 0);
    expect("N = 16 accepted", series_number(16, offsets) == 0);
    expect("N = 17 refused by 6", series_number(17, offsets) == 6);
    expect("work memory of 16 by 16, s = 2", ref_grey_needed(16, 16, 2) == 672 && ref_words_needed(16, 16, 2) == 96);
    expect("no work memory for a refused size", ref_grey_needed(15, 16, 2) == 0 && ref_words_needed(15, 16, 2) == 0);
}

static bool shifts_out(int32_t dx, int32_t dy)
{
    uint64_t bitmap[6] = { ~0ull, ~0ull, ~0ull, ~0ull, ~0ull, ~0ull }, out[6] = { 1, 1, 1, 1, 1, 1 };
    uint64_t zero[6] = { 0 };
    return ref_shift(70, 3, dx, dy, bitmap, 6, out, 6) == 0 && memcmp(out, zero, sizeof zero) == 0;
}

static void check_shifts(void)
{
    expect("shift by w: all 0", shifts_out(70, 0) && shifts_out(-70, 0));
    expect("shift by more than w: all 0", shifts_out(71, 0) && shifts_out(INT32_MAX, 0));
    expect("shift by the lowest number: all 0", shifts_out(INT32_MIN, 0) && shifts_out(0, INT32_MIN));
    expect("shift by less than w: not all 0", !shifts_out(69, 0) && !shifts_out(-69, 0));
}

/* ---- How many pixels had a say ---- */

/* A difference of frames of 70 by 3 with all their threshold bits unequal: count and compared number. */
static bool tallies(const uint64_t exclusion1[6], const uint64_t exclusion2[6], int32_t dx, int32_t dy, uint32_t expected)
{
    static const uint64_t dark[6], bright[6] = { ~0ull, ~0ull, ~0ull, ~0ull, ~0ull, ~0ull };
    uint32_t count = 99, compared = 99;
    uint32_t number = ref_difference(70, 3, dx, dy, dark, 6, exclusion1, 6, bright, 6, exclusion2, 6, &count, &compared);
    return number == 0 && count == expected && compared == expected;
}

static void check_compared(void)
{
    static const uint64_t all[6] = { ~0ull, ~0ull, ~0ull, ~0ull, ~0ull, ~0ull }, none[6];
    static const uint64_t left[6] = { 1, 0, 1, 0, 1, 0 }, past[6] = { 0, ~63ull, 0, ~63ull, 0, ~63ull };
    expect("none excluded: all that overlap, no bits past w", tallies(all, all, 0, 0, 210) && tallies(all, all, 3, -1, 134));
    expect("no overlap: none", tallies(all, all, 70, 0, 0) && tallies(all, all, 0, -3, 0) && tallies(all, all, INT32_MIN, 0, 0));
    expect("all of a frame excluded: none", tallies(none, all, 0, 0, 0) && tallies(all, none, 0, 0, 0));
    expect("only bits past w set: none", tallies(past, all, 0, 0, 0) && tallies(all, past, -1, 0, 0));
    expect("the second frame's left column is moved in", tallies(all, left, 1, 0, 3) && tallies(all, left, 69, 1, 2));
    expect("the second frame's left column is moved out", tallies(all, left, -1, 0, 0));
    expect("the first frame's left column stays", tallies(left, all, -1, 0, 3) && tallies(left, all, 1, 0, 0));
    expect("both left columns", tallies(left, left, 0, 0, 3) && tallies(left, left, 1, 0, 0));
}

static uint32_t lengths_number(size_t counts_len, size_t compared_len)
{
    static uint8_t rasters[2 * 48];
    uint32_t percentile = 50, counts[9], compared[9];
    int32_t dx, dy, offsets[4];
    uint32_t pair = ref_pair(4, 4, 0, 0, 50, rasters, 48, rasters, 48, &dx, &dy, counts, counts_len, compared, compared_len, NULL,
                             AMPLE, NULL, AMPLE);
    uint32_t series = ref_series(4, 4, 0, 0, 2, 0, &percentile, 1, rasters, 96, offsets, 4, counts, counts_len, compared,
                                 compared_len, NULL, AMPLE, NULL, AMPLE);
    expect("pair and series refuse alike", pair == series);
    return pair;
}

/* "into a further buffer of the same length … A shorter one is refused by 10." */
static void check_compared_lengths(void)
{
    expect("nine counts and nine compared numbers accepted", lengths_number(9, 9) == 0);
    expect("eight compared numbers refused by 10", lengths_number(9, 8) == 10);
    expect("eight counts refused by 10", lengths_number(8, 9) == 10);
    expect("eight of both refused by 10", lengths_number(8, 8) == 10);
}

/* ---- Bands ---- */

enum { RANKED_SIDE = 20, RANKED_BYTES = 3 * RANKED_SIDE * RANKED_SIDE, WHITE = 255 };

/* A frame of 20 by 20. Of each square of four pixels the upper two have the tone of one of a hundred ranks, the lower two are white. So
 * halved it has every rank once. */
static void ranked(uint8_t darkest, uint8_t step, uint8_t raster[RANKED_BYTES])
{
    for (uint32_t i = 0; i < RANKED_SIDE * RANKED_SIDE; i++) {
        uint32_t x = i % RANKED_SIDE, y = i / RANKED_SIDE, rank = (10 * (y / 2) + x / 2) * 37 % 100;
        memset(raster + 3 * i, y % 2 ? WHITE : darkest + step * rank, 3);
    }
}

/* How many pixels of the finest level are left out. Each rank has 2 of 400, 4 a percent: the threshold for p is that of rank 2p - 1,
 * above 50 white, which has 200. At 17 the ends are the ranks 33 - 2b and 33 + 2b, at 50 rank 99 - 2b and, but for b = 0, white; at
 * 83 both are white. */
static uint32_t left_out(uint32_t percentile, uint32_t band)
{
    return percentile == 17 ? 2 * (4 * band + 1) : percentile == 50 ? 2 * (2 * band + 1) + (band > 0 ? 200 : 0) : 200;
}

/* Two frames of the same ranks in other tones: with every band none of those that lie on each other at (0,0) differs. Halved, each
 * rank has one of 100: of the percentiles P-b to P+b 2b + 1 are left out. */
static bool band_gives(uint32_t percentile, uint32_t band)
{
    uint8_t rasters[2 * RANKED_BYTES];
    uint32_t counts[18], compared[18], counts2[18], compared2[18];
    int32_t dx = 9, dy = 9, offsets[4];
    ranked(10, 2, rasters);
    ranked(100, 1, rasters + RANKED_BYTES);
    uint32_t pair = ref_pair_band(RANKED_SIDE, RANKED_SIDE, 1, band, percentile, rasters, RANKED_BYTES, rasters + RANKED_BYTES,
                                  RANKED_BYTES, &dx, &dy, counts, 18, compared, 18, NULL, AMPLE, NULL, AMPLE);
    uint32_t series = ref_series_band(RANKED_SIDE, RANKED_SIDE, 1, band, 2, 1, &percentile, 1, rasters, 2 * RANKED_BYTES, offsets, 4,
                                      counts2, 18, compared2, 18, NULL, AMPLE, NULL, AMPLE);
    bool same = memcmp(counts, counts2, sizeof counts) == 0 && memcmp(compared, compared2, sizeof compared) == 0;
    return pair == 0 && series == 0 && same && dx == 0 && dy == 0 && counts[4] == 0 && compared[4] == 100 - (2 * band + 1) &&
           counts[13] == 0 && compared[13] == 400 - left_out(percentile, band);
}

/* "where grey lies between the thresholds for percentiles P−b and P+b, both included, at each level" */
static void check_bands(void)
{
    bool at_17 = true, at_50 = true, at_83 = true;
    for (uint32_t band = 0; band <= 16; band++) {
        at_17 = at_17 && band_gives(17, band);
        at_50 = at_50 && band_gives(50, band);
        at_83 = at_83 && band_gives(83, band);
    }
    expect("every band at P = 17: percentiles 1 to 33", at_17);
    expect("every band at P = 50: percentiles 34 to 66", at_50);
    expect("every band at P = 83: percentiles 67 to 99", at_83);
}

/* The number of a pair and of a series of n frames with a band; their lengths are right. */
static uint32_t band_number(uint32_t side, uint32_t s, uint32_t band, uint32_t percentile, uint32_t n)
{
    static uint8_t rasters[17 * 3 * 16];
    uint32_t percentiles[16], counts[144], compared[144];
    int32_t dx, dy, offsets[34];
    size_t bytes = (size_t)3 * side * side;
    for (int i = 0; i < 16; i++)
        percentiles[i] = percentile;
    uint32_t pair = ref_pair_band(side, side, s, band, percentile, rasters, bytes, rasters, bytes, &dx, &dy, counts, 144, compared,
                                  144, NULL, AMPLE, NULL, AMPLE);
    uint32_t series = ref_series_band(side, side, s, band, n, 0, percentiles, n - 1, rasters, n * bytes, offsets, 34, counts, 144,
                                      compared, 144, NULL, AMPLE, NULL, AMPLE);
    expect("pair and series refuse alike, but for 6", pair == series || (pair == 0 && series == 6));
    return series;
}

/* "15, b is above 16, tested in the place of 5." */
static void check_band_limits(void)
{
    expect("b = 16 accepted", band_number(4, 0, 16, 17, 2) == 0 && band_number(4, 0, 16, 83, 16) == 0);
    expect("b = 17 refused by 15", band_number(4, 0, 17, 50, 2) == 15);
    expect("any greater b refused by 15", band_number(4, 0, 64, 50, 2) == 15 && band_number(4, 0, UINT32_MAX, 50, 2) == 15);
    expect("15 after 2", band_number(0, 0, 17, 50, 2) == 2);
    expect("15 after 3", band_number(4, 9, 17, 50, 2) == 3);
    expect("15 after 4", band_number(3, 0, 17, 50, 2) == 4);
    expect("15 before 6", band_number(4, 0, 17, 50, 17) == 15 && band_number(4, 0, 16, 50, 17) == 6);
    expect("15 before 8", band_number(4, 0, 17, 49, 2) == 15 && band_number(4, 0, 16, 49, 2) == 8);
}

/* ---- Comments ---- */

/* The number of a file. An accepted one is 2 by 1, and its last six bytes are the raster. */
static uint32_t file_number(const char *text)
{
    const uint8_t *file = (const uint8_t *)text;
    size_t file_len = strlen(text), start = 0, length = 0;
    uint32_t w = 0, h = 0, number = ref_p6_size(file, file_len, &w, &h);
    expect("size and raster have one number", ref_p6_raster(file, file_len, &start, &length) == number);
    expect("2 by 1, the raster at the end", number != 0 || (w == 2 && h == 1 && start + 6 == file_len && length == 6));
    return number;
}

/* "a `#` standing where whitespace may stand begins a comment. It runs through the next byte 10 or 13 and counts as whitespace." */
static void check_comments(void)
{
    expect("a line before the width", file_number("P6\n# gain 120\n2 1\n255\nabcdef") == 0);
    expect("a line before the height", file_number("P6\n2\n# gain 120\n1\n255\nabcdef") == 0);
    expect("a line before the largest value", file_number("P6\n2 1\n# gain 120\n255\nabcdef") == 0);
    expect("comments alone separate", file_number("P6#c\n2#c\n1#c\r255\nabcdef") == 0);
    expect("blanks on both sides", file_number("P6\t#c\n 2 #c\r\r1 #c\n\t255\nabcdef") == 0);
    expect("several and empty ones", file_number("P6#\n#\r#c\n2 # c\n # c\n1#\r\n#\r\n255\nabcdef") == 0);
    expect("`#` and fields in a comment", file_number("P6 ## 3 3 255\n2 1 #255\r255\nabcdef") == 0);
    expect("a comment hides its bytes alone", file_number("P6 #2\n1 1 255\nabcdef") == 9);
    expect("no number between comments", file_number("P6#2\n#1\n#255\nabcdef") == 1);
}

/* "From the end of `P6` to the first digit of the largest value" */
static void check_no_comments(void)
{
    expect("before P6", file_number("#c\nP6 2 1 255\nabcdef") == 1);
    expect("between P and 6", file_number("P#c\n6 2 1 255\nabcdef") == 1);
    expect("in the largest value", file_number("P6 2 1 25#c\n5\nabcdef") == 1);
    expect("after its first digit", file_number("P6 2 1 0#c\n255\nabcdef") == 1);
    expect("right after 255", file_number("P6 2 1 255#c\nabcdef") == 1 && file_number("P6 2 1 255#\nabcdef") == 1);
    expect("after 255 and a blank: six bytes are the raster", file_number("P6 2 1 255 #cdef\n") == 0);
    expect("after 255 and a blank: nine bytes are too many", file_number("P6 2 1 255\n#c\nabcdef") == 9);
    expect("a width ends at a comment", file_number("P6 2#c\n1 1 255\nabcdef") == 1);
}

/* "A comment cut off by the end of the file is refused by 1." */
static void check_cut_comments(void)
{
    expect("after P6", file_number("P6#") == 1 && file_number("P6 # gain 120") == 1);
    expect("after the width", file_number("P6 2#") == 1 && file_number("P6 2 # gain 120") == 1);
    expect("after the height", file_number("P6 2 1#") == 1 && file_number("P6 2 1 # gain 120") == 1);
    expect("no 10 or 13 up to the raster's end", file_number("P6 2 1 #255 abcdef") == 1);
    expect("a 10 at the raster's end", file_number("P6 2 1 #255 abcde\n") == 1);
    expect("a 10 among what looked like the raster", file_number("P6 2 1 #255 abc\n255 abcdef") == 0);
}

/* "The writer emits none, so writing and then reading is still the identity." */
static void check_written_comments(void)
{
    static const uint8_t raster[6] = { '#', 'c', '\n', '#', 'c', '\r' };
    uint8_t file[100];
    size_t written = 0, start = 0, length = 0;
    uint32_t w = 0, h = 0;
    expect("a raster like comments is written", ref_p6_write(2, 1, raster, 6, file, sizeof file, &written) == 0);
    expect("no comment in the header", written > 6 && memchr(file, '#', written) == file + written - 6);
    expect("the same size is read", ref_p6_size(file, written, &w, &h) == 0 && w == 2 && h == 1);
    expect("the same raster is read", ref_p6_raster(file, written, &start, &length) == 0 && start + length == written &&
                                          length == 6 && memcmp(file + start, raster, 6) == 0);
}

/* ---- Quadrants ---- */

/* What a quadrant of 4 by 4 shows: one frame twice, or the printed case, which by the least move goes (-1,0); with its frames
 * exchanged it goes the other way, and with rows and columns exchanged along the other axis. */
enum show { STILL, LEFT, RIGHT, UP, DOWN, SHOWS };

static const int32_t moves_of[SHOWS][2] = { { 0, 0 }, { -1, 0 }, { 1, 0 }, { 0, -1 }, { 0, 1 } };

static uint8_t shown_tone(enum show show, bool second, uint32_t x, uint32_t y)
{
    bool shifted = show == STILL ? false : show == LEFT || show == UP ? second : !second;
    uint32_t place = show == UP || show == DOWN ? 4 * x + y : 4 * y + x;
    return printed_tones[(shifted ? printed_second : printed_first)[place] - 'a'];
}

/* A raster of 8 or 9 by 8 or 9. Columns 0 to 3 are the left quadrants', the last four the right ones'; column 4 of nine is nobody's
 * and has the middle tone. Rows likewise. */
static void four_shown(uint32_t w, uint32_t h, const enum show shows[4], bool second, uint8_t middle, uint8_t *raster)
{
    memset(raster, middle, (size_t)3 * w * h);
    for (uint32_t y = 0; y < 4; y++)
        for (uint32_t x = 0; x < 4; x++) {
            const uint32_t places[4] = { y * w + x, y * w + w - 4 + x, (h - 4 + y) * w + x, (h - 4 + y) * w + w - 4 + x };
            for (int q = 0; q < 4; q++)
                memset(raster + 3 * places[q], shown_tone(shows[q], second, x, y), 3);
        }
}

/* Just the memory of a quadrant, and eight offsets of ten. */
static bool quadrants_give(uint32_t w, uint32_t h, const enum show shows[4], const uint8_t middles[2], bool turned)
{
    uint8_t first[3 * 81], second[3 * 81];
    int32_t offsets[10] = { 99, 99, 99, 99, 99, 99, 99, 99, 99, 99 };
    bool told = !turned, right = true;
    four_shown(w, h, shows, false, middles[0], first);
    four_shown(w, h, shows, true, middles[1], second);
    uint32_t bytes = 3 * w * h;
    uint32_t number = ref_quadrants(w, h, 0, 0, 50, first, bytes, second, bytes, offsets, 10, &told, NULL, 2 * 16, NULL, 6 * 4);
    for (int q = 0; q < 4; q++)
        right = right && offsets[2 * q] == moves_of[shows[q]][0] && offsets[2 * q + 1] == moves_of[shows[q]][1];
    return number == 0 && right && offsets[8] == 99 && offsets[9] == 99 && told == turned;
}

/* In every size, whatever the middle column and row show. */
static void expect_quadrants(const char *what, const enum show shows[4], bool turned)
{
    static const uint8_t middles[][2] = { { 0, 0 }, { 255, 0 }, { 0, 255 }, { 20, 90 } };
    bool give = true;
    for (uint32_t w = 8; w <= 9; w++)
        for (uint32_t h = 8; h <= 9; h++)
            for (int m = 0; m < 4; m++)
                give = give && quadrants_give(w, h, shows, middles[m], turned);
    expect(what, give);
}

/* Two of the quadrants show these, the others one frame twice. */
static void expect_two(const char *what, enum show one, enum show other, bool turned)
{
    for (int i = 0; i < 4; i++)
        for (int k = 0; k < 4; k++)
            if (i != k) {
                enum show shows[4] = { STILL, STILL, STILL, STILL };
                shows[i] = one;
                shows[k] = other;
                expect_quadrants(what, shows, turned);
            }
}

static void check_quadrants(void)
{
    expect_quadrants("nothing moves", (const enum show[4]){ STILL, STILL, STILL, STILL }, false);
    expect_quadrants("upper left, upper right, lower left, lower right", (const enum show[4]){ LEFT, UP, RIGHT, DOWN }, true);
    expect_quadrants("all move alike", (const enum show[4]){ LEFT, LEFT, LEFT, LEFT }, false);
    expect_quadrants("1 apart on both axes", (const enum show[4]){ LEFT, UP, UP, LEFT }, false);
    expect_two("two quadrants 2 apart across", LEFT, RIGHT, true);
    expect_two("two quadrants 2 apart down", UP, DOWN, true);
    expect_two("two quadrants 1 apart on both axes", LEFT, DOWN, false);
    expect_two("one quadrant 1 apart", STILL, UP, false);
    uint8_t flat[3 * 32 * 32];
    int32_t offsets[8] = { 9, 9, 9, 9, 9, 9, 9, 9 }, still[8] = { 0 };
    bool turned = true;
    memset(flat, 77, sizeof flat);
    expect("a flat frame with s = 2: (0,0) four times",
           ref_quadrants(32, 32, 2, 0, 50, flat, sizeof flat, flat, sizeof flat, offsets, 8, &turned, NULL, 672, NULL, 96) == 0 &&
               memcmp(offsets, still, sizeof still) == 0 && !turned);
}

static bool turned_by(int32_t x1, int32_t y1, int32_t x2, int32_t y2, int32_t x3, int32_t y3, int32_t x4, int32_t y4)
{
    return ref_turned((const int32_t[8]){ x1, y1, x2, y2, x3, y3, x4, y4 });
}

/* "exactly when two of them differ by more than 1 on an axis" */
static void check_turned(void)
{
    expect("all alike", !turned_by(0, 5, 0, 5, 0, 5, 0, 5) && !turned_by(-511, 511, -511, 511, -511, 511, -511, 511));
    expect("1 apart everywhere", !turned_by(3, -4, 4, -3, 4, -4, 3, -3) && !turned_by(-1, 0, 0, -1, 0, 0, -1, -1));
    expect("upper ones", turned_by(0, 0, 2, 0, 1, 0, 1, 0) && turned_by(7, 1, 7, -1, 7, 0, 7, 0));
    expect("left ones", turned_by(-1, 3, 0, 3, 1, 3, 0, 3) && turned_by(0, 2, 0, 1, 0, 0, 0, 1));
    expect("upper left and lower right", turned_by(0, 0, 1, 0, 1, 0, 2, 0) && turned_by(0, 0, 0, -1, 0, -1, 0, -2));
    expect("upper right and lower left", turned_by(1, 0, 0, 0, 2, 0, 1, 0) && turned_by(1, 5, 1, 6, 1, 4, 1, 5));
    expect("right ones", turned_by(1, 0, 2, 0, 1, 0, 0, 0) && turned_by(0, -1, 0, -2, 0, -1, 0, 0));
    expect("lower ones", turned_by(0, 0, 0, 0, -1, 0, 1, 0) && turned_by(0, 0, 0, 0, 0, 1, 0, -1));
    expect("as far as it goes", turned_by(511, 0, 511, 0, 511, 0, -511, 0));
}

/* The number of a call whose lengths are right but for what is told. */
static uint32_t quadrants_number(uint32_t w, uint32_t h, uint32_t s, uint32_t tolerance, uint32_t percentile, int longer1,
                                 int longer2, size_t offsets_len, size_t grey_len, size_t words_len)
{
    static uint8_t raster[3 * 17 * 17];
    int32_t offsets[8];
    bool turned;
    size_t length = (size_t)3 * w * h;
    return ref_quadrants(w, h, s, tolerance, percentile, raster, length + longer1, raster, length + longer2, offsets, offsets_len,
                         &turned, NULL, grey_len, NULL, words_len);
}

static uint32_t small_number(uint32_t w, uint32_t h, uint32_t s)
{
    return quadrants_number(w, h, s, 0, 50, 0, 0, 8, AMPLE, AMPLE);
}

/* "Refusal 4 and the work memory look at a quadrant's size." */
static void check_quadrants_limits(void)
{
    expect("a frame of 8 by 8 accepted", small_number(8, 8, 0) == 0 && small_number(9, 8, 0) == 0);
    expect("a side of 7 refused by 4", small_number(7, 8, 0) == 4 && small_number(8, 7, 0) == 4);
    expect("16 with s = 1 accepted", small_number(16, 16, 1) == 0 && small_number(16, 17, 1) == 0);
    expect("15 with s = 1 refused by 4", small_number(15, 16, 1) == 4 && small_number(16, 15, 1) == 4);
    expect("a side of 1 refused by 4", small_number(1, 8, 0) == 4 && small_number(8, 1, 0) == 4 && small_number(1, 1, 0) == 4);
    expect("a side of 0 or 4097 refused by 2", small_number(0, 8, 9) == 2 && small_number(4097, 8, 9) == 2);
    expect("s = 9 refused by 3", small_number(1, 1, 9) == 3);
    expect("T = 65 refused by 5", quadrants_number(8, 8, 0, 65, 49, 0, 0, 8, AMPLE, AMPLE) == 5);
    expect("P = 49 refused by 8", quadrants_number(8, 8, 0, 64, 49, 1, 0, 8, AMPLE, AMPLE) == 8);
    expect("the first raster refused by 9", quadrants_number(8, 8, 0, 64, 83, 1, 0, 7, AMPLE, AMPLE) == 9);
    expect("the second raster refused by 9", quadrants_number(8, 8, 0, 64, 83, 0, -1, 7, AMPLE, AMPLE) == 9);
    expect("seven offsets refused by 10", quadrants_number(8, 8, 0, 64, 83, 0, 0, 7, 0, 0) == 10);
    expect("a quadrant's memory accepted", quadrants_number(17, 17, 1, 64, 17, 0, 0, 8, 2 * (64 + 16), 6 * 8) == 0);
    expect("short grey refused by 11", quadrants_number(17, 17, 1, 64, 17, 0, 0, 8, 2 * (64 + 16) - 1, 6 * 8) == 11);
    expect("short words refused by 11", quadrants_number(17, 17, 1, 64, 17, 0, 0, 8, 2 * (64 + 16), 6 * 8 - 1) == 11);
}

/* ---- The live bracket ---- */

enum { HELD = 36, LIVE_SIDE = 8, LIVE_PIXELS = LIVE_SIDE * LIVE_SIDE, LIVE_FRAMES = 16, LIVE_GREY = 2 * 64, LIVE_WORDS = 6 * 8 };

/* The memory of a bracket of 8 by 8 frames without halving, and what is told of it. */
struct live {
    int32_t held[HELD], offsets[2 * LIVE_FRAMES];
    uint8_t newest[LIVE_PIXELS];
    uint32_t told;
};

/* Anything. */
static struct live unstarted(void)
{
    struct live live;
    memset(&live, 0x5A, sizeof live);
    return live;
}

static uint32_t start(struct live *live)
{
    return ref_live_start(LIVE_SIDE, LIVE_SIDE, 0, 0, 50, live->held, HELD, live->newest, LIVE_PIXELS);
}

/* Ground of which every place looks otherwise, seen by a camera that stands at (x,y), which are 0 to 9. */
static uint8_t ground_at(int32_t x, int32_t y)
{
    return (uint8_t)((37 * x + 91 * y + 13 * x * y) % 251);
}

static void look_from(int32_t x, int32_t y, uint8_t *raster)
{
    for (int32_t row = 0; row < LIVE_SIDE; row++)
        for (int32_t column = 0; column < LIVE_SIDE; column++)
            memset(raster + 3 * (row * LIVE_SIDE + column), ground_at(x + column, y + row), 3);
}

static uint32_t add_from(struct live *live, int32_t x, int32_t y)
{
    uint8_t raster[3 * LIVE_PIXELS];
    look_from(x, y, raster);
    return ref_live_add(live->held, HELD, live->newest, LIVE_PIXELS, raster, sizeof raster, NULL, LIVE_GREY, NULL, LIVE_WORDS);
}

static uint32_t drop(struct live *live)
{
    return ref_live_drop(live->held, HELD, live->newest, LIVE_PIXELS);
}

static uint32_t tell(struct live *live)
{
    return ref_live_offsets(live->held, HELD, live->newest, LIVE_PIXELS, live->offsets, 2 * LIVE_FRAMES, &live->told);
}

/* Whether these frames are held, with these numbers from the sixth on, and 0 after them. */
static bool holds(const struct live *live, int32_t frames, const int32_t *pairs)
{
    static const int32_t settings[] = { LIVE_SIDE, LIVE_SIDE, 0, 0, 50 };
    int32_t used = frames > 0 ? 2 * (frames - 1) : 0;
    bool zero = true;
    for (int i = 6 + used; i < HELD; i++)
        zero = zero && live->held[i] == 0;
    return memcmp(live->held, settings, sizeof settings) == 0 && live->held[5] == frames &&
           memcmp(live->held + 6, pairs, (size_t)used * sizeof *pairs) == 0 && zero;
}

static bool tells(struct live *live, uint32_t frames, const int32_t *offsets)
{
    live->told = 99;
    memset(live->offsets, 0x5A, sizeof live->offsets);
    bool told = tell(live) == 0 && live->told == frames && memcmp(live->offsets, offsets, 8 * frames) == 0;
    return told && (frames == LIVE_FRAMES || live->offsets[2 * frames] == 0x5A5A5A5A);
}

/* "starts empty"; "adds a frame at its end, drops its oldest, and tells the offsets, always against its oldest" */
static void check_live(void)
{
    static const int32_t none[1], first[] = { 0, 0 };
    struct live live = unstarted();
    uint8_t before[LIVE_PIXELS];
    memcpy(before, live.newest, sizeof before);
    expect("nothing goes before a start", tell(&live) == 16 && drop(&live) == 16 && add_from(&live, 4, 4) == 16);
    expect("a bracket starts empty", start(&live) == 0 && holds(&live, 0, none) && tells(&live, 0, none));
    expect("a start leaves the newest grey", memcmp(live.newest, before, sizeof before) == 0);
    expect("a drop with nothing held", drop(&live) == 16 && holds(&live, 0, none));
    expect("the first frame", add_from(&live, 4, 3) == 0 && holds(&live, 1, none) && tells(&live, 1, first));
    expect("its grey", live.newest[0] == ground_at(4, 3) && live.newest[LIVE_PIXELS - 1] == ground_at(11, 10));
    expect("the second frame", add_from(&live, 5, 3) == 0 && holds(&live, 2, (int32_t[]){ 1, 0 }));
    expect("the third frame", add_from(&live, 6, 4) == 0 && holds(&live, 3, (int32_t[]){ 1, 0, 1, 1 }));
    expect("sums against the oldest", tells(&live, 3, (int32_t[]){ 0, 0, 1, 0, 2, 1 }));
    expect("the oldest is dropped", drop(&live) == 0 && holds(&live, 2, (int32_t[]){ 1, 1 }));
    expect("sums against the next", tells(&live, 2, (int32_t[]){ 0, 0, 1, 1 }));
    expect("one frame is left", drop(&live) == 0 && holds(&live, 1, none) && live.newest[0] == ground_at(6, 4));
    expect("it is aligned with the next", add_from(&live, 5, 4) == 0 && holds(&live, 2, (int32_t[]){ -1, 0 }));
    expect("none is left", drop(&live) == 0 && drop(&live) == 0 && holds(&live, 0, none) && tells(&live, 0, none));
    expect("the next frame is a first one", add_from(&live, 4, 4) == 0 && holds(&live, 1, none) && tells(&live, 1, first));
    expect("a second start empties", start(&live) == 0 && holds(&live, 0, none));
}

/* "A seventeenth frame is refused by 6." */
static void check_live_full(void)
{
    struct live live = unstarted(), before;
    int32_t pairs[2 * LIVE_FRAMES];
    start(&live);
    for (int k = 0; k < LIVE_FRAMES; k++) {
        expect("sixteen frames", add_from(&live, 3 + k % 2, 4) == 0);
        pairs[2 * k] = k % 2 ? -1 : 1;
        pairs[2 * k + 1] = 0;
    }
    expect("fifteen pairs", holds(&live, LIVE_FRAMES, pairs));
    before = live;
    expect("a seventeenth frame", add_from(&live, 1, 1) == 6 && memcmp(&live, &before, sizeof live) == 0);
    expect("after a drop there is room", drop(&live) == 0 && add_from(&live, 3, 4) == 0 && live.held[5] == LIVE_FRAMES);
}

/* The number of each call after one of the held numbers is changed. */
static bool all_give(const struct live *live, int at, int32_t value, uint32_t add_number, uint32_t drop_number, uint32_t tell_number)
{
    struct live copies[3] = { *live, *live, *live };
    for (int i = 0; i < 3; i++)
        copies[i].held[at] = value;
    return add_from(&copies[0], 4, 4) == add_number && drop(&copies[1]) == drop_number && tell(&copies[2]) == tell_number;
}

static bool all_refuse(const struct live *live, int at, int32_t value)
{
    return all_give(live, at, value, 16, 16, 16);
}

/* "held memory whose size (a side below 2^(s+2) included), settings, frame number (not 0 to 16) or pair offsets in use (beyond
 * 2^(s+1)−1) break their limits" */
static void check_damaged(void)
{
    struct live live = unstarted();
    start(&live);
    add_from(&live, 4, 4);
    add_from(&live, 4, 3);
    for (int at = 0; at < 6; at++)
        expect("negative numbers", all_refuse(&live, at, -1) && all_refuse(&live, at, INT32_MIN) && all_refuse(&live, at, INT32_MAX));
    for (int at = 0; at < 2; at++) {
        expect("sides", all_refuse(&live, at, 0) && all_refuse(&live, at, 3) && all_refuse(&live, at, 4097));
        expect("sides within limits", all_give(&live, at, 4096, 9, 9, 9) && all_give(&live, at, 9, 9, 9, 9));
    }
    expect("halvings", all_refuse(&live, 2, 2) && all_refuse(&live, 2, 9) && all_give(&live, 2, 1, 11, 0, 0));
    expect("tolerance", all_refuse(&live, 3, 65) && all_give(&live, 3, 64, 0, 0, 0));
    expect("percentile", all_refuse(&live, 4, 49) && all_give(&live, 4, 83, 0, 0, 0));
    expect("frames", all_refuse(&live, 5, 17) && all_give(&live, 5, 16, 6, 0, 0) && all_give(&live, 5, 0, 0, 16, 0));
    for (int at = 6; at < 8; at++) {
        expect("offsets in use", all_refuse(&live, at, 2) && all_refuse(&live, at, -2) && all_refuse(&live, at, INT32_MIN));
        expect("offsets at their limits", all_give(&live, at, 1, 0, 0, 0) && all_give(&live, at, -1, 0, 0, 0));
        expect("offsets out of use", all_give(&live, at + 2, 2, 0, 0, 0) && all_give(&live, at + 28, INT32_MIN, 0, 0, 0));
    }
    live.held[8] = 77;
    expect("unused ones are written 0 by an add",
           add_from(&live, 4, 4) == 0 && live.held[8] == 0 && live.held[9] == 1 && live.held[35] == 0);
    live.held[35] = 77;
    expect("and by a drop", drop(&live) == 0 && live.held[35] == 0);
}

/* The number of each call with a length off. */
static uint32_t start_number(uint32_t w, uint32_t h, uint32_t s, uint32_t tolerance, uint32_t percentile, size_t held, size_t newest)
{
    struct live live = unstarted();
    return ref_live_start(w, h, s, tolerance, percentile, live.held, held, live.newest, newest);
}

static uint32_t add_number(struct live live, size_t held, size_t newest, size_t raster, size_t grey, size_t words)
{
    uint8_t bytes[3 * LIVE_PIXELS] = { 0 };
    return ref_live_add(live.held, held, live.newest, newest, bytes, raster, NULL, grey, NULL, words);
}

/* 16 is "tested before all others but the length of the 36 numbers"; the start "never gives 16 and keeps the usual order". */
static void check_live_order(void)
{
    struct live live = unstarted(), full, bad;
    start(&live);
    full = bad = live;
    full.held[5] = LIVE_FRAMES;
    bad.held[3] = 65;
    expect("start: 2, 3, 4", start_number(0, 8, 9, 65, 49, 35, 1) == 2 && start_number(8, 7, 9, 65, 49, 35, 1) == 3 &&
                                 start_number(8, 7, 1, 65, 49, 35, 1) == 4);
    expect("start: 5, 8, 9", start_number(8, 8, 1, 65, 49, 35, 1) == 5 && start_number(8, 8, 1, 64, 49, 35, 1) == 8 &&
                                 start_number(8, 8, 1, 64, 17, 35, 64) == 9 && start_number(8, 8, 1, 64, 17, 36, 65) == 9);
    expect("another shape of as many pixels", start_number(16, 4, 0, 0, 50, 36, 64) == 0);
    expect("add: 9 before 16", add_number(bad, 35, 64, 192, 0, 0) == 9 && add_number(bad, 37, 64, 192, 0, 0) == 9);
    expect("add: 16 before 6 and 9", add_number(bad, 36, 63, 191, 0, 0) == 16);
    expect("add: 6 before 9", add_number(full, 36, 63, 191, 0, 0) == 6);
    expect("add: 9 before 11", add_number(live, 36, 63, 192, 0, 0) == 9 && add_number(live, 36, 64, 193, 0, 0) == 9);
    expect("add: 11", add_number(live, 36, 64, 192, LIVE_GREY - 1, LIVE_WORDS) == 11 &&
                          add_number(live, 36, 64, 192, LIVE_GREY, LIVE_WORDS - 1) == 11);
    expect("add: a pair's memory for the first frame", add_number(live, 36, 64, 192, LIVE_GREY, LIVE_WORDS) == 0);
    expect("drop: 9, 16, 9", ref_live_drop(bad.held, 35, bad.newest, 63) == 9 && ref_live_drop(live.held, 36, live.newest, 63) == 16 &&
                                 ref_live_drop(full.held, 36, full.newest, 63) == 9);
    expect("tell: 9, 16", ref_live_offsets(bad.held, 37, bad.newest, 63, bad.offsets, 0, &bad.told) == 9 &&
                              ref_live_offsets(bad.held, 36, bad.newest, 63, bad.offsets, 0, &bad.told) == 16);
    full.told = 99;
    memset(full.held + 6, 0, 30 * sizeof *full.held);
    expect("tell: 9, 10", ref_live_offsets(full.held, 36, full.newest, 63, full.offsets, 31, &full.told) == 9 &&
                              ref_live_offsets(full.held, 36, full.newest, 64, full.offsets, 31, &full.told) == 10 && full.told == 99);
    expect("tell: nothing into nothing",
           ref_live_offsets(live.held, 36, live.newest, 64, live.offsets, 0, &live.told) == 0 && live.told == 0);
}

/* Frames come and go: "the offsets told are those of the series call on the frames then held, in order". */
static void check_live_series(void)
{
    static const uint32_t percentiles[LIVE_FRAMES] = { 50, 50, 50, 50, 50, 50, 50, 50, 50, 50, 50, 50, 50, 50, 50, 50 };
    static uint8_t rasters[40][3 * LIVE_PIXELS];
    uint32_t counts[9 * 15], compared[9 * 15], first = 0, next = 0;
    struct live live = unstarted();
    start(&live);
    for (int step = 0; step < 60; step++) {
        if (next - first < LIVE_FRAMES && next < 40 && step % 5 != 3) {
            look_from(step % 4 / 2, step % 6 / 3, rasters[next++]);
            expect("a frame comes", add_from(&live, step % 4 / 2, step % 6 / 3) == 0);
        } else {
            expect("a frame goes", drop(&live) == 0);
            first++;
        }
        int32_t series[2 * LIVE_FRAMES];
        uint32_t n = next - first;
        if (n > 0)
            expect("the series is told",
                   ref_series(LIVE_SIDE, LIVE_SIDE, 0, 0, n, 0, percentiles, n - 1, rasters[first], n * sizeof rasters[0], series,
                              2 * LIVE_FRAMES, counts, 9 * 15, compared, 9 * 15, NULL, LIVE_GREY, NULL, LIVE_WORDS) == 0 &&
                       tells(&live, n, series));
    }
}

int main(void)
{
    check_pixels();
    check_thresholds();
    check_printed("the printed case", printed_tones);
    check_printed("the printed case, the first frame re-exposed", (const uint8_t[3]){ 3, 4, 200 });
    check_printed_orders();
    check_flat();
    check_tie();
    check_limits();
    check_shifts();
    check_compared();
    check_compared_lengths();
    check_bands();
    check_band_limits();
    check_comments();
    check_no_comments();
    check_cut_comments();
    check_written_comments();
    check_quadrants();
    check_turned();
    check_quadrants_limits();
    check_live();
    check_live_full();
    check_damaged();
    check_live_order();
    check_live_series();
    printf("reference: %d compared, %d differ\n", checked, different);
    return different ? EXIT_FAILURE : EXIT_SUCCESS;
}
