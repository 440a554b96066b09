/* The memory of a live bracket: 36 numbers, and the newest frame's grey. */
#ifndef HELD_H
#define HELD_H

#include "trial.h"

enum { HELD_NUMBERS = 36, HELD_FRAMES = 5 /* the place of the number of frames */ };

/* What a session hands to its next call: its memory, and a frame to add. */
struct held {
    const int32_t *numbers;
    const uint8_t *newest, *raster;
};

/* The numbers of a bracket of this size and these settings that holds so many frames: its pairs' offsets within their limits,
 * often at the ends, and anything where a number is unused. Where `damaged`, one number in use breaks its limit. */
uint8_t *make_held(const struct numbers *numbers, uint32_t frames, bool damaged);

/* Breaks the limit of one number in use. */
void damage(int32_t *held, const struct numbers *numbers, uint32_t frames);

/* Writes anything into the unused numbers. */
void scribble(int32_t *held, uint32_t frames);

#endif
