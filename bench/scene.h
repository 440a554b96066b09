/* Frames of a made scene: the same ones on every machine, by a seeded formula of whole numbers. */
#ifndef SCENE_H
#define SCENE_H

#include <stdint.h>

/* How far frame k of a bracket has slid, and so the true offset of two frames: the difference of their slides. */
struct slide {
    int32_t x, y;
};

struct slide scene_slide(uint32_t k);

/* Frame k of the scene `seed`, as a raster of w by h: its slide, its own exposure, a little noise. */
void scene_frame(uint32_t seed, uint32_t k, uint32_t w, uint32_t h, uint8_t *raster);

/* The next of a stream of random numbers. */
uint32_t scene_random(uint32_t *state);

#endif
