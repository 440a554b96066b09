/*
 * mtb.h: alignment of exposure brackets by Ward's median threshold bitmaps.
 *
 * A camera takes a bracket of exposures; between two frames the picture slides. These functions tell
 * how far, in whole pixels. Link libmtb.a (x86-64, System V calling convention, no instruction beyond
 * SSE2). For C99 and later, and for C++. Of the C library it needs memset, memcpy and memmove at most.
 *
 * FRAMES
 *   w, h      width and height, 1 to 4096 each. Pixel (x, y) counts from 0, x to the right, y down.
 *   raster    3*w*h bytes: rows from the top, three bytes a pixel: red, green, blue.
 *   grey      w*h bytes: rows from the top, one byte a pixel.
 *   bitmap    W*h words of 64 bits, W = (w + 63) / 64 a row: pixel (x, y) is bit x % 64, bit 0 the
 *             lowest, of word y*W + x/64. Bits past w in the last word of a row are written 0, and in
 *             a lent bitmap read as 0, whatever they are.
 *   (dx, dy)  a move to the right by dx and down by dy. Where a function takes one, any two numbers do.
 *
 * SETTINGS
 *   s           halvings, 0 to 8. Frames are aligned on s + 1 levels, each half as wide and high as the
 *               one before. Both sides must be 2^(s+2) at least (mtb_quadrants: a quadrant's sides); a
 *               pair's offset reaches 2^(s+1) - 1 pixels each way.
 *   tolerance   0 to 64. Pixels whose grey value is that close to the threshold are left out.
 *   band        0 to 16, for mtb_pair_band and mtb_series_band in place of the tolerance. Left out are
 *               pixels whose grey value lies from the threshold for percentile - band to that for
 *               percentile + band, both included.
 *   percentile  17, 50 or 83: where the threshold lies among a frame's grey values; 50 is the median.
 *   A live bracket is given its size and settings once, by mtb_live_start; its memory keeps them.
 *
 * RESULTS
 *   Every function but the last two of "Alignment" returns 0 when it has accepted its inputs, else the
 *   number of a refusal, listed below. A refused call has changed nothing: no output, nothing held, no
 *   work memory, nothing behind a pointer. An accepted call writes what is needed to the beginning of an
 *   output; the excess of a longer one stays as it was.
 *
 * WHAT IS LENT
 *   A slice is a pointer and a number of elements (not of bytes). All memory is the caller's, and lent
 *   until the call returns. The library keeps nothing between calls: no heap, no file, no global
 *   variable, nothing to set up or to free. What a live bracket holds from call to call stands in two
 *   slices of the caller's, held and newest, which the caller keeps as they are between the calls; any
 *   number of live brackets may be held at once. The caller sees to it that
 *   - no pointer is NULL, also where its length is 0;
 *   - a pointer is aligned for its type (uint64_t and size_t to 8 bytes, uint32_t and int32_t to 4),
 *     and that many elements are there;
 *   - what a call may write (outputs, held and newest, work memory, results behind pointers) overlaps
 *     nothing else that is lent to the same call; inputs, the const ones, may overlap each other or be
 *     the same;
 *   - nobody else writes any of it before the call returns.
 *   What outputs and work memory hold before a call does not matter. held and newest are inputs and
 *   outputs of the same call: what they hold before it matters, but for mtb_live_start.
 *
 * THREADS
 *   The functions share no state. Any number of threads may be inside them at once, each with outputs,
 *   live brackets and work memory of its own; inputs may be shared. Every call returns; none waits for
 *   anything.
 *
 * STACK
 *   Bytes, with stacked arguments and return address:
 *     mtb_pair, mtb_pair_ward, mtb_pair_band          6848 + 240*s, so 8768 at most
 *     mtb_series, mtb_series_ward, mtb_series_band    7040 + 240*s, so 8960 at most
 *     mtb_live_add                                    7296 + 240*s, so 9216 at most
 *     mtb_quadrants                                   7360 + 240*s, so 9280 at most
 *     mtb_threshold 6272, mtb_difference 1024, mtb_shift 672; every other function: below 400
 *   Measured, not proved (tests/outside/run stack): each call was run on a painted stack, and the deepest changed
 *   byte was looked for, over frames from 1 by 1 to 4096 by 4096 with every s that they allow and
 *   series of up to 16 frames. Another build of the archive may differ: leave a margin.
 *
 * PROOF
 *   The functions are written in Rattle and proved to meet their contracts: for all inputs lent as
 *   above the result, and every number written, is that of the definitions in crates/NAME/specs/.
 *   docs/TRUST.md says what this rests on.
 */
#ifndef MTB_H
#define MTB_H

#include <stdbool.h>
#include <stddef.h>
#include <stdint.h>

#ifdef __cplusplus
extern "C" {
#endif

/*
 * Refusals. A function tests those that its comment lists, in the order of the numbers but for 15, which
 * stands in the place of 5, and 16, which is tested before all others but the length of the held
 * numbers (9); it gives the first that applies.
 */
enum mtb_refusal {
    MTB_ACCEPTED = 0,
    MTB_BAD_HEADER = 1,      /* the file has no P6 header, or one with a largest value other than 255 */
    MTB_BAD_SIZE = 2,        /* a width or height is 0 or above 4096 */
    MTB_BAD_HALVINGS = 3,    /* s is above 8 */
    MTB_TOO_SMALL = 4,       /* a side (of a quadrant, for mtb_quadrants) is below 2^(s+2), for mtb_halve below 2 */
    MTB_BAD_TOLERANCE = 5,   /* the tolerance is above 64 */
    MTB_BAD_FRAMES = 6,      /* the number of frames is 0 or above 16; a live bracket holds 16 already */
    MTB_BAD_REFERENCE = 7,   /* the reference is not below the number of frames */
    MTB_BAD_PERCENTILE = 8,  /* a percentile is not 17, 50 or 83, or there are not n - 1 of them */
    MTB_WRONG_LENGTH = 9,    /* an input, a held slice, or the raster in a file has not exactly the needed length */
    MTB_SHORT_OUTPUT = 10,   /* an output is shorter than needed */
    MTB_SHORT_MEMORY = 11,   /* the grey or the word work memory is shorter than needed */
    MTB_FAR_OFFSET = 12,     /* a number of the offsets is outside -32768 to 32767 */
    MTB_NOTHING_COMMON = 13, /* the common area has no column or no row */
    MTB_BAD_ROW = 14,        /* the row's y is not below the height */
    MTB_BAD_BAND = 15,       /* the band is above 16; tested in the place of 5 */
    MTB_BAD_HELD = 16        /* held numbers break their limits, or nothing is held to drop; tested first */
};

/* ---- Frames ---- */

/*
 * The grey frame of a raster: (54*red + 183*green + 19*blue) / 256, rounded down, for each pixel.
 * grey: w*h bytes. Refusals: 2, 9, 10.
 */
uint32_t mtb_grey(uint32_t w, uint32_t h,
                  const uint8_t *raster, size_t raster_len,
                  uint8_t *grey, size_t grey_len);

/*
 * A grey frame halved: each new pixel is the second smallest of its four, repeats counted. An odd last
 * column or row is dropped. out: (w/2)*(h/2) bytes. Refusals: 2, 4, 9, 10.
 */
uint32_t mtb_halve(uint32_t w, uint32_t h,
                   const uint8_t *grey, size_t grey_len,
                   uint8_t *out, size_t out_len);

/*
 * The threshold of a grey frame: the smallest grey value v with
 * 100 * (the number of pixels at most v) >= percentile * w*h. Refusals: 2, 8, 9.
 */
uint32_t mtb_threshold(uint32_t w, uint32_t h, uint32_t percentile,
                       const uint8_t *grey, size_t grey_len,
                       uint8_t *threshold);

/* ---- Bitmaps ---- */

/*
 * The two bitmaps of a grey frame. Threshold bit: 1 where the grey value is above the threshold.
 * Exclusion bit: 0 where it differs from the threshold by the tolerance or less, else 1.
 * threshold_bits and exclusion_bits: W*h words each. Refusals: 2, 5, 9, 10.
 */
uint32_t mtb_bitmaps(uint32_t w, uint32_t h, uint8_t threshold, uint32_t tolerance,
                     const uint8_t *grey, size_t grey_len,
                     uint64_t *threshold_bits, size_t threshold_bits_len,
                     uint64_t *exclusion_bits, size_t exclusion_bits_len);

/*
 * A bitmap moved: the new bit at (x, y) is the old one at (x - dx, y - dy), 0 where that is outside.
 * out: W*h words. Refusals: 2, 9, 10.
 */
uint32_t mtb_shift(uint32_t w, uint32_t h, int32_t dx, int32_t dy,
                   const uint64_t *bitmap, size_t bitmap_len,
                   uint64_t *out, size_t out_len);

/* The number of 1 bits of a bitmap. Refusals: 2, 9. */
uint32_t mtb_total(uint32_t w, uint32_t h,
                   const uint64_t *bitmap, size_t bitmap_len,
                   uint32_t *total);

/*
 * The difference count of two frames with the second moved by (dx, dy), and out of how many pixels.
 * *compared: the number of pixels (x, y) of the first whose partner (x - dx, y - dy) lies in the
 * second, with both exclusion bits 1. *count: the number of those whose threshold bits are unequal.
 * So *count <= *compared <= (w - |dx|)*(h - |dy|), the pixels that overlap, where |dx| <= w and
 * |dy| <= h; beyond, both are 0. *count / *compared is the share that disagrees; *compared may be 0, so
 * look before you divide. Refusals: 2, 9.
 */
uint32_t mtb_difference(uint32_t w, uint32_t h, int32_t dx, int32_t dy,
                        const uint64_t *threshold1, size_t threshold1_len,
                        const uint64_t *exclusion1, size_t exclusion1_len,
                        const uint64_t *threshold2, size_t threshold2_len,
                        const uint64_t *exclusion2, size_t exclusion2_len,
                        uint32_t *count, uint32_t *compared);

/* ---- Alignment ---- */

/*
 * The offset (*dx, *dy) that moves the second raster onto the first, and the difference counts that
 * led to it. counts: 9*(s+1) numbers, nine a level, the coarsest level first. A level's nine are those
 * of the moves (cx + i, cy + j), i from -1 to 1 and within each i j from -1 to 1; (cx, cy) is twice the
 * answer of the level before, at first (0, 0). The move with the least count is the level's answer.
 * Among equal ones mtb_pair prefers the least step (i, j): (0,0), (-1,0), (1,0), (0,-1), (0,1), (-1,-1),
 * (-1,1), (1,-1), (1,1), so that blank sky, where all counts are equal, does not move the mount.
 * compared: as many numbers in the same order, the compared numbers of these moves as mtb_difference
 * tells them: counts[k] is out of compared[k] pixels of its level, 0 where all are left out, as in a flat
 * frame. Refusal 10 looks at counts and compared alike.
 * grey, words: work memory, as long as mtb_grey_needed and mtb_words_needed tell, or longer; what it
 * holds afterwards means nothing. Refusals: 2, 3, 4, 5, 8, 9, 10, 11.
 */
uint32_t mtb_pair(uint32_t w, uint32_t h, uint32_t s, uint32_t tolerance, uint32_t percentile,
                  const uint8_t *first, size_t first_len,
                  const uint8_t *second, size_t second_len,
                  int32_t *dx, int32_t *dy,
                  uint32_t *counts, size_t counts_len,
                  uint32_t *compared, size_t compared_len,
                  uint8_t *grey, size_t grey_len,
                  uint64_t *words, size_t words_len);

/*
 * A series of n frames, 1 to 16, aligned pair by pair as by mtb_pair: frames 0 and 1 with
 * percentiles[0], frames 1 and 2 with percentiles[1], and so on. r is the frame that all offsets refer to, 0 to n-1.
 * percentiles: n-1 numbers. rasters: n*3*w*h bytes, one raster after another.
 * offsets: 2*n numbers, dx and dy of each frame: the move that brings it onto frame r, by the sum over
 * the pairs between; (0, 0) for frame r itself. counts, compared: 9*(s+1)*(n-1) numbers each, those of
 * each pair as mtb_pair tells them. grey, words: as for mtb_pair. Refusals: 2 to 11.
 */
uint32_t mtb_series(uint32_t w, uint32_t h, uint32_t s, uint32_t tolerance, uint32_t n, uint32_t r,
                    const uint32_t *percentiles, size_t percentiles_len,
                    const uint8_t *rasters, size_t rasters_len,
                    int32_t *offsets, size_t offsets_len,
                    uint32_t *counts, size_t counts_len,
                    uint32_t *compared, size_t compared_len,
                    uint8_t *grey, size_t grey_len,
                    uint64_t *words, size_t words_len);

/*
 * The same two in the order of Ward's paper, for comparison with it and with programs that follow it:
 * among equal counts a level's answer is the first of its nine as they are written, i from -1 to 1 and
 * within each i j from -1 to 1. Blank sky then gives a pair -(2^(s+1) - 1) on both axes, as far as it
 * goes, and a series the sums of that. Nothing else differs from mtb_pair and mtb_series.
 */
uint32_t mtb_pair_ward(uint32_t w, uint32_t h, uint32_t s, uint32_t tolerance, uint32_t percentile,
                       const uint8_t *first, size_t first_len,
                       const uint8_t *second, size_t second_len,
                       int32_t *dx, int32_t *dy,
                       uint32_t *counts, size_t counts_len,
                       uint32_t *compared, size_t compared_len,
                       uint8_t *grey, size_t grey_len,
                       uint64_t *words, size_t words_len);

uint32_t mtb_series_ward(uint32_t w, uint32_t h, uint32_t s, uint32_t tolerance, uint32_t n, uint32_t r,
                         const uint32_t *percentiles, size_t percentiles_len,
                         const uint8_t *rasters, size_t rasters_len,
                         int32_t *offsets, size_t offsets_len,
                         uint32_t *counts, size_t counts_len,
                         uint32_t *compared, size_t compared_len,
                         uint8_t *grey, size_t grey_len,
                         uint64_t *words, size_t words_len);

/*
 * mtb_pair and mtb_series with a noise band by rank in place of the tolerance. A tolerance is a number
 * of grey steps, and what it leaves out depends on the camera's tone curve and exposure; a band is a
 * number of percentiles. At each level a frame's pixels are left out whose grey value lies from the
 * level's threshold for percentile - band to that for percentile + band, both included: about 2*band
 * in a hundred, and those of the same grey. (The threshold for any percentile from 1 to 99 is as
 * mtb_threshold tells it for 17, 50 and 83.) A band of 0 gives what the tolerance 0 gives. A bracket taken
 * again with other exposures or another tone curve, brighter pixels staying brighter and equal ones
 * equal, gets the same answer, whatever the band. docs/ACCURACY.md tells which band to take.
 * Refusals: those of mtb_pair and mtb_series with 15 in the place of 5.
 */
uint32_t mtb_pair_band(uint32_t w, uint32_t h, uint32_t s, uint32_t band, uint32_t percentile,
                       const uint8_t *first, size_t first_len,
                       const uint8_t *second, size_t second_len,
                       int32_t *dx, int32_t *dy,
                       uint32_t *counts, size_t counts_len,
                       uint32_t *compared, size_t compared_len,
                       uint8_t *grey, size_t grey_len,
                       uint64_t *words, size_t words_len);

uint32_t mtb_series_band(uint32_t w, uint32_t h, uint32_t s, uint32_t band, uint32_t n, uint32_t r,
                         const uint32_t *percentiles, size_t percentiles_len,
                         const uint8_t *rasters, size_t rasters_len,
                         int32_t *offsets, size_t offsets_len,
                         uint32_t *counts, size_t counts_len,
                         uint32_t *compared, size_t compared_len,
                         uint8_t *grey, size_t grey_len,
                         uint64_t *words, size_t words_len);

/*
 * A warning of field rotation, as a mount with poor polar alignment causes it: the four quadrants of
 * both frames are aligned, each by itself. Each is w/2 by h/2 pixels, rounded down. The left ones begin
 * at column 0, the right ones at w - w/2, the upper ones at row 0, the lower ones at h - h/2: an odd
 * middle column or row belongs to none. A quadrant's offset is the one that mtb_pair gives for the same
 * pixels, cropped out of both rasters. docs/ACCURACY.md tells when to trust the warning.
 * offsets: 8 numbers, dx and dy of the upper left, upper right, lower left and lower right quadrant.
 * *turned: true exactly when two of the four offsets, any two, differ by more than 1 in dx or in dy.
 * grey, words: work memory, as long as mtb_grey_needed(w/2, h/2, s) and mtb_words_needed(w/2, h/2, s)
 * tell, or longer; what it holds afterwards means nothing. Refusals: 2, 3, 4, 5, 8, 9, 10, 11. Of these
 * 4 and 11 look at a quadrant (so a side of the frame must be 2^(s+3) at least), 2 and 9 at the frame.
 */
uint32_t mtb_quadrants(uint32_t w, uint32_t h, uint32_t s, uint32_t tolerance, uint32_t percentile,
                       const uint8_t *first, size_t first_len,
                       const uint8_t *second, size_t second_len,
                       int32_t *offsets, size_t offsets_len,
                       bool *turned,
                       uint8_t *grey, size_t grey_len,
                       uint64_t *words, size_t words_len);

/*
 * The work memory of these seven and of mtb_live_add; of mtb_quadrants with a quadrant's w/2 and h/2
 * for w and h. Bytes of grey: twice the pixels of all levels. Words of 64 bits: 6*W*h. For 1920 by 1080
 * and s = 6 that is 5529000 bytes and 194400 words; the most, for 4096 by 4096 and s = 8, is 44739072
 * bytes and 1572864 words.
 * These two return 0 where refusal 2, 3 or 4 applies to w, h and s.
 */
size_t mtb_grey_needed(uint32_t w, uint32_t h, uint32_t s);
size_t mtb_words_needed(uint32_t w, uint32_t h, uint32_t s);

/* ---- Live bracket ---- */

/*
 * A series whose frames come and go: a frame is added at its end, the oldest is dropped, and the offsets
 * of the frames held, 0 to 16, are told against the oldest. Size, s, tolerance and percentile are fixed
 * when it starts. After any list of these calls, refused ones among them, the offsets told are those
 * that mtb_series gives for the frames then held, with r = 0 and that percentile for every pair; but
 * each frame is aligned once, when it is added, and no raster is kept. That holds as long as nobody else
 * writes the memory between the calls.
 *
 * The memory is two slices of the caller's, handed to every call with exactly these lengths:
 *   held     36 numbers: w, h, s, tolerance, percentile, the number of frames held, then dx and dy of
 *            each pair of neighbours, oldest first: n frames have n - 1 pairs. The others are unused:
 *            every accepted start, add and drop writes 0 there, and no call reads them.
 *   newest   w*h bytes: the grey of the newest frame. While no frame is held it is free: no call reads
 *            it, and it may hold anything.
 * It may be copied, stored and handed over elsewhere as it is. Each call but mtb_live_start tests it
 * anew: refusal 16 where w or h is not 1 to 4096, s is above 8, a side is below 2^(s+2), the tolerance
 * is above 64, the percentile is not 17, 50 or 83, the number of frames is above 16, one of these is
 * negative, or a dx or dy in use is beyond 2^(s+1) - 1 either way. So memory that was overwritten leads
 * to a refusal or to offsets of its own, never to a step outside what is lent. 16 is tested before all
 * others but the length of held: without 36 numbers there is nothing to look at, and the call answers 9.
 */

/*
 * Starts a live bracket, empty, with this size and these settings, whatever the memory held: a second
 * start begins anew, also with another shape of as many pixels. It reads none of the memory, never gives
 * 16, writes all of held, and leaves newest as it is. Refusals: 2, 3, 4, 5, 8, 9.
 */
uint32_t mtb_live_start(uint32_t w, uint32_t h, uint32_t s, uint32_t tolerance, uint32_t percentile,
                        int32_t *held, size_t held_len,
                        uint8_t *newest, size_t newest_len);

/*
 * Adds a frame: aligns it with the newest one as mtb_pair would, where one is held, keeps that pair's
 * offset in held and the new frame's grey in newest. raster: 3*w*h bytes, not needed any more when the
 * call is back. grey, words: work memory, as long as mtb_grey_needed and mtb_words_needed tell for w, h
 * and s, or longer, for the first frame too; what it holds afterwards means nothing. A seventeenth frame
 * is refused by 6: drop one first. Refusals, in this order: 9 (held), 16, 6, 9 (newest, raster), 11.
 */
uint32_t mtb_live_add(int32_t *held, size_t held_len,
                      uint8_t *newest, size_t newest_len,
                      const uint8_t *raster, size_t raster_len,
                      uint8_t *grey, size_t grey_len,
                      uint64_t *words, size_t words_len);

/*
 * Drops the oldest frame and its pair; the offsets are told against the next one from now on. Nothing is
 * aligned, and newest stays as it is. Where nothing is held: 16. Refusals, in this order: 9 (held), 16,
 * 9 (newest).
 */
uint32_t mtb_live_drop(int32_t *held, size_t held_len,
                       uint8_t *newest, size_t newest_len);

/*
 * Tells the offsets: *n is the number of frames held, 0 to 16. offsets: 2*n numbers, dx and dy of each
 * frame, oldest first: the move that brings it onto the oldest, which has (0, 0) itself. Room for 32
 * numbers always suffices. Refusals, in this order: 9 (held), 16, 9 (newest), 10.
 */
uint32_t mtb_live_offsets(const int32_t *held, size_t held_len,
                          const uint8_t *newest, size_t newest_len,
                          int32_t *offsets, size_t offsets_len,
                          uint32_t *n);

/* ---- P6 files (Netpbm's ppm) ---- */

/*
 * The width and height of the frame that a file holds. A file is "P6", whitespace, width, whitespace,
 * height, whitespace, 255, one byte of whitespace, raster, and nothing more. Whitespace is one or more
 * of the bytes 9, 10, 13 and 32; a number has one to nine digits. Before a number a comment counts as
 * whitespace: from a '#' through the next byte 10 or 13 (so it alone separates two numbers). A comment
 * that the file's end cuts off is refused by 1, and so is one right after 255. Refusals: 1, 2, 9.
 */
uint32_t mtb_p6_size(const uint8_t *file, size_t file_len, uint32_t *w, uint32_t *h);

/* Where the raster of a file is: *length bytes from file + *start on. Refusals: 1, 2, 9. */
uint32_t mtb_p6_raster(const uint8_t *file, size_t file_len, size_t *start, size_t *length);

/*
 * A raster written as a file, with no comment in the header; *written is the number of its bytes: 3*w*h
 * and a header of 11 to 17. Refusals: 2, 9, 10.
 */
uint32_t mtb_p6_write(uint32_t w, uint32_t h,
                      const uint8_t *raster, size_t raster_len,
                      uint8_t *out, size_t out_len,
                      size_t *written);

/* ---- Views of an aligned series ---- */

/*
 * What n frames, 1 to 16, have in common once each is moved by its offset: columns from *left up to,
 * not including, *right, rows from *top up to, not including, *bottom, as the frame that is not moved
 * counts them. offsets: 2*n numbers, as mtb_series writes them. Refusals: 2, 6, 9, 12, 13.
 */
uint32_t mtb_common_area(uint32_t w, uint32_t h, uint32_t n,
                         const int32_t *offsets, size_t offsets_len,
                         uint32_t *left, uint32_t *right, uint32_t *top, uint32_t *bottom);

/*
 * A raster moved by (dx, dy), with 0, 0, 0 where nothing comes from inside. out: 3*w*h bytes.
 * Refusals: 2, 9, 10.
 */
uint32_t mtb_moved(uint32_t w, uint32_t h, int32_t dx, int32_t dy,
                   const uint8_t *raster, size_t raster_len,
                   uint8_t *out, size_t out_len);

/*
 * Where row y is in the second of two rasters, or in the first where second is false, for a display
 * that shows them in turn: *length bytes from *start on, counted in the chosen raster. Both rasters'
 * lengths are tested. Refusals: 2, 9, 14.
 */
uint32_t mtb_blink_row(uint32_t w, uint32_t h, uint32_t y, bool second,
                       const uint8_t *first_raster, size_t first_len,
                       const uint8_t *second_raster, size_t second_len,
                       size_t *start, size_t *length);

#ifdef __cplusplus
}
#endif

#endif
