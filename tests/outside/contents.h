/* What the inputs of a trial hold. */
#ifndef CONTENTS_H
#define CONTENTS_H

#include "trial.h"

/* A heap block of just this size. */
void *memory(size_t bytes);

/* Random bytes, eight at a time. */
void random_fill(uint8_t *bytes, size_t count);

uint8_t *make_grey(uint32_t w, uint32_t h);
uint8_t *make_bitmap(size_t words);
uint8_t *make_rasters(uint32_t w, uint32_t h, uint32_t n);

/* Takes the colour from rasters of so many bytes, one after another, and gives the same frames exposed otherwise, each by a rising
 * curve of its own. */
uint8_t *re_exposed(uint32_t w, uint32_t h, uint8_t *rasters, size_t bytes);

/* Two rasters of one scene, one after the other; often the quadrants of the second slide each for itself, by nearly the same. */
uint8_t *make_quartered(uint32_t w, uint32_t h);

/* n percentiles; where `bad`, one of them or more is none. */
uint8_t *make_percentiles(size_t n, bool bad);

/* n offsets: one outside its limits where 12 is wanted, with nothing in common where 13 is, with something where neither is. */
uint8_t *make_offsets(const struct trial *trial, uint32_t n);

/* files.c: a P6 file, or nearly one, for a frame of about this size; where `correct`, one of exactly this size as the writer makes it. */
uint8_t *make_file(const struct numbers *numbers, bool correct, size_t *length);
size_t file_bytes(uint32_t w, uint32_t h);

#endif
