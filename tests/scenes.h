/* Random numbers from a seed, and frames to align: scenes with structure, seen through a window that moves. Integers alone, so
 * that every machine makes the same bytes. */
#ifndef SCENES_H
#define SCENES_H

#include <stddef.h>
#include <stdint.h>

/* Begins a sequence of random numbers that depends on the seed and a name alone. */
void random_begin(uint64_t seed, const char *name);
uint64_t random_bits(void);
uint32_t random_below(uint32_t limit);
int32_t random_between(int32_t low, int32_t high);
void random_bytes(uint8_t *bytes, size_t count);

enum { SCENE_BLOBS = 10, SCENE_EDGES = 3 };

/* Smooth blobs on a ground, cut by straight edges. */
struct scene {
    struct blob {
        int32_t x, y, radius, height;
    } blobs[SCENE_BLOBS];
    struct edge {
        int32_t a, b, c, height;
    } edges[SCENE_EDGES];
};

struct scene random_scene(uint32_t w, uint32_t h);

/* How a frame sees a scene: the window's place, gain in 64ths, black level, the greatest noise each way. */
struct exposure {
    int32_t x, y, gain, black, noise;
};

/* The scene as a raster. */
void expose(const struct scene *scene, struct exposure by, uint32_t w, uint32_t h, uint8_t *raster);

/* A grey frame of the scene with values below `values`, R = G = B. */
void expose_grey(const struct scene *scene, struct exposure by, uint32_t w, uint32_t h, uint32_t values, uint8_t *raster);

/* A strictly rising tone curve on the values below `values`. */
void random_curve(uint32_t values, uint8_t curve[256]);

/* The frame of grey values curve[g] where a raster with R = G = B has g, in random colours of just that grey. */
void re_expose(const uint8_t *raster, size_t pixels, const uint8_t curve[256], uint8_t *out);

/* Frames with so little to see that several moves have the same count: of one grey value; of one but for a pixel or two; stripes,
 * upright, level or aslant; square cells of two to four values. n rasters of one scene, R = G = B, one after another, each seen
 * through a window of its own. */
enum dull { DULL_FLAT, DULL_HAZE, DULL_STRIPES, DULL_CELLS, DULL_KINDS };
void dull_frames(enum dull kind, uint32_t w, uint32_t h, uint32_t n, uint8_t *rasters);

/* Frames made by a formula, for sizes that are too large to store; FORMAT.md has the formula. */
struct made {
    uint32_t scene, w, rows;
};

void make_frames(struct made by, size_t count, uint8_t *bytes);

#endif
