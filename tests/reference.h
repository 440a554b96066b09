/* An independent implementation of document 01 and document 02, Papers 1 to 7, written straight from their text, pixel by pixel.
 *
 * It shares no code with the library and is meant to be read beside the documents: bitmaps are read and written a bit at a
 * time, differences are counted over single pixels, a threshold is found by counting, and speed does not matter.
 * The test vectors (make_vectors.c) and the tests from outside come from it.
 *
 * Each function answers 0 when it accepts, else the refusal number, and then changes nothing. Arguments stand in this order:
 * sizes, settings, moves, input slices, output slices, work memory (which this implementation never touches).
 */
#ifndef REFERENCE_H
#define REFERENCE_H

#include <stdbool.h>
#include <stddef.h>
#include <stdint.h>

uint32_t ref_grey(uint32_t w, uint32_t h, const uint8_t *raster, size_t raster_len, uint8_t *grey, size_t grey_len);

uint32_t ref_halve(uint32_t w, uint32_t h, const uint8_t *grey, size_t grey_len, uint8_t *out, size_t out_len);

uint32_t ref_threshold(uint32_t w, uint32_t h, uint32_t percentile, const uint8_t *grey, size_t grey_len,
                       uint8_t *threshold);

uint32_t ref_bitmaps(uint32_t w, uint32_t h, uint8_t threshold, uint32_t tolerance, const uint8_t *grey, size_t grey_len,
                     uint64_t *threshold_bits, size_t threshold_bits_len, uint64_t *exclusion_bits,
                     size_t exclusion_bits_len);

uint32_t ref_shift(uint32_t w, uint32_t h, int32_t dx, int32_t dy, const uint64_t *bitmap, size_t bitmap_len,
                   uint64_t *out, size_t out_len);

uint32_t ref_total(uint32_t w, uint32_t h, const uint64_t *bitmap, size_t bitmap_len, uint32_t *total);

uint32_t ref_difference(uint32_t w, uint32_t h, int32_t dx, int32_t dy, const uint64_t *threshold1, size_t threshold1_len,
                        const uint64_t *exclusion1, size_t exclusion1_len, const uint64_t *threshold2,
                        size_t threshold2_len, const uint64_t *exclusion2, size_t exclusion2_len, uint32_t *count,
                        uint32_t *compared);

uint32_t ref_pair(uint32_t w, uint32_t h, uint32_t s, uint32_t tolerance, uint32_t percentile, const uint8_t *first,
                  size_t first_len, const uint8_t *second, size_t second_len, int32_t *dx, int32_t *dy, uint32_t *counts,
                  size_t counts_len, uint32_t *compared, size_t compared_len, uint8_t *grey, size_t grey_len, uint64_t *words,
                  size_t words_len);

uint32_t ref_series(uint32_t w, uint32_t h, uint32_t s, uint32_t tolerance, uint32_t n, uint32_t r,
                    const uint32_t *percentiles, size_t percentiles_len, const uint8_t *rasters, size_t rasters_len,
                    int32_t *offsets, size_t offsets_len, uint32_t *counts, size_t counts_len, uint32_t *compared,
                    size_t compared_len, uint8_t *grey, size_t grey_len, uint64_t *words, size_t words_len);

/* The kept calls: among equal counts these two take the first in Ward's order, those above the least move. */
uint32_t ref_pair_ward(uint32_t w, uint32_t h, uint32_t s, uint32_t tolerance, uint32_t percentile, const uint8_t *first,
                       size_t first_len, const uint8_t *second, size_t second_len, int32_t *dx, int32_t *dy,
                       uint32_t *counts, size_t counts_len, uint32_t *compared, size_t compared_len, uint8_t *grey,
                       size_t grey_len, uint64_t *words, size_t words_len);

uint32_t ref_series_ward(uint32_t w, uint32_t h, uint32_t s, uint32_t tolerance, uint32_t n, uint32_t r,
                         const uint32_t *percentiles, size_t percentiles_len, const uint8_t *rasters, size_t rasters_len,
                         int32_t *offsets, size_t offsets_len, uint32_t *counts, size_t counts_len, uint32_t *compared,
                         size_t compared_len, uint8_t *grey, size_t grey_len, uint64_t *words, size_t words_len);

/* With a noise band by rank in place of the tolerance: the grey values from the threshold for percentile − band to that for
 * percentile + band are left out. By the least move. */
uint32_t ref_pair_band(uint32_t w, uint32_t h, uint32_t s, uint32_t band, uint32_t percentile, const uint8_t *first,
                       size_t first_len, const uint8_t *second, size_t second_len, int32_t *dx, int32_t *dy,
                       uint32_t *counts, size_t counts_len, uint32_t *compared, size_t compared_len, uint8_t *grey,
                       size_t grey_len, uint64_t *words, size_t words_len);

uint32_t ref_series_band(uint32_t w, uint32_t h, uint32_t s, uint32_t band, uint32_t n, uint32_t r,
                         const uint32_t *percentiles, size_t percentiles_len, const uint8_t *rasters, size_t rasters_len,
                         int32_t *offsets, size_t offsets_len, uint32_t *counts, size_t counts_len, uint32_t *compared,
                         size_t compared_len, uint8_t *grey, size_t grey_len, uint64_t *words, size_t words_len);

/* The offsets of the four quadrants, each by the least move, and whether the second frame is turned. */
uint32_t ref_quadrants(uint32_t w, uint32_t h, uint32_t s, uint32_t tolerance, uint32_t percentile, const uint8_t *first,
                       size_t first_len, const uint8_t *second, size_t second_len, int32_t *offsets, size_t offsets_len,
                       bool *turned, uint8_t *grey, size_t grey_len, uint64_t *words, size_t words_len);

/* Whether quadrants with these offsets, dx and dy of each, are turned. */
bool ref_turned(const int32_t offsets[8]);

/* A live bracket: its memory is 36 numbers and the newest frame's grey. One starts empty; a frame is added at its end, by the least
 * move, the oldest is dropped, and the offsets of the *n frames held are told against the oldest. */
uint32_t ref_live_start(uint32_t w, uint32_t h, uint32_t s, uint32_t tolerance, uint32_t percentile, int32_t *held,
                        size_t held_len, uint8_t *newest, size_t newest_len);

uint32_t ref_live_add(int32_t *held, size_t held_len, uint8_t *newest, size_t newest_len, const uint8_t *raster,
                      size_t raster_len, uint8_t *grey, size_t grey_len, uint64_t *words, size_t words_len);

uint32_t ref_live_drop(int32_t *held, size_t held_len, uint8_t *newest, size_t newest_len);

uint32_t ref_live_offsets(const int32_t *held, size_t held_len, const uint8_t *newest, size_t newest_len, int32_t *offsets,
                          size_t offsets_len, uint32_t *n);

uint32_t ref_p6_size(const uint8_t *file, size_t file_len, uint32_t *w, uint32_t *h);

/* The raster as a part of the file: where it begins, and how many bytes it has. */
uint32_t ref_p6_raster(const uint8_t *file, size_t file_len, size_t *start, size_t *length);

uint32_t ref_p6_write(uint32_t w, uint32_t h, const uint8_t *raster, size_t raster_len, uint8_t *out, size_t out_len,
                      size_t *written);

/* Right and bottom are not included. */
uint32_t ref_common_area(uint32_t w, uint32_t h, uint32_t n, const int32_t *offsets, size_t offsets_len, uint32_t *left,
                         uint32_t *right, uint32_t *top, uint32_t *bottom);

uint32_t ref_moved(uint32_t w, uint32_t h, int32_t dx, int32_t dy, const uint8_t *raster, size_t raster_len, uint8_t *out,
                   size_t out_len);

/* The row as a part of the chosen raster: where it begins, and how many bytes it has. */
uint32_t ref_blink_row(uint32_t w, uint32_t h, uint32_t y, bool second, const uint8_t *first_raster, size_t first_len,
                       const uint8_t *second_raster, size_t second_len, size_t *start, size_t *length);

/* Work memory of pair, series and the live bracket's add, and of quadrants with a quadrant's size: bytes, and 64-bit words; 0 when
 * the sizes or s are refused. */
size_t ref_grey_needed(uint32_t w, uint32_t h, uint32_t s);
size_t ref_words_needed(uint32_t w, uint32_t h, uint32_t s);

/* The bytes that the program `bracket` prints for its standard input and the bytes of its two files (no bytes for a missing
 * one), and how many they are: REF_BRACKET_ROOM at most. */
enum { REF_BRACKET_ROOM = 1024 };
size_t ref_bracket(const uint8_t *input, size_t input_len, const uint8_t *first, size_t first_len, const uint8_t *second,
                   size_t second_len, uint8_t *out);

#endif
