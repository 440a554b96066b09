/* The careful C program that the library is measured against: the same rules, Ward's order among equal counts but for the
 * quadrants, the same lent memory, inputs taken on trust. The header says what each buffer holds; the library's own is
 * include/mtb.h. Where `compared` is NULL it counts only differences, as it did before Paper 2. */
#ifndef CAREFUL_H
#define CAREFUL_H

#include <stddef.h>
#include <stdint.h>

/* Two rasters of w by h. Writes the offset, the 9·(s+1) counts and as many compared numbers. Work memory as for mtb_pair:
 * grey 2·(pixels of all levels) bytes, words 4·W·h. */
void careful_pair(uint32_t w, uint32_t h, uint32_t s, uint32_t tolerance, uint32_t percentile, const uint8_t *first,
                  const uint8_t *second, int32_t *dx, int32_t *dy, uint32_t *counts, uint32_t *compared, uint8_t *grey,
                  uint64_t *words);

/* n rasters, one after another, n-1 percentiles. Writes 2·n offsets about frame r, 9·(s+1)·(n-1) counts and as many
 * compared numbers. */
void careful_series(uint32_t w, uint32_t h, uint32_t s, uint32_t tolerance, uint32_t n, uint32_t r,
                    const uint32_t *percentiles, const uint8_t *rasters, int32_t *offsets, uint32_t *counts,
                    uint32_t *compared, uint8_t *grey, uint64_t *words);

/* Two rasters of w by h. Writes the offsets of the four quadrants, by the least move, and tells whether the second frame
 * has turned. It counts only differences: that is all the offsets need. Work memory as for a pair of half the sides. */
int careful_quadrants(uint32_t w, uint32_t h, uint32_t s, uint32_t tolerance, uint32_t percentile, const uint8_t *first,
                      const uint8_t *second, int32_t *offsets, uint8_t *grey, uint64_t *words);

/* The difference count and the compared number of two frames' bitmaps, whose bits past w are 0, at a move by less than w
 * and h. */
void careful_difference(uint32_t w, uint32_t h, int32_t dx, int32_t dy, uint64_t *threshold1, uint64_t *exclusion1,
                        uint64_t *threshold2, uint64_t *exclusion2, uint32_t *count, uint32_t *compared);

#endif
