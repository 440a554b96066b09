/* A scene has clouds at four sizes, as noise on a lattice, and blocks of one brightness with sharp edges:
 * something to see at every level of a pyramid. */
#include "scene.h"

enum { ORIGIN = 1 << 20, RADIANCES = 1024 };

/* A hash of a place: all 32 bits are as good as random. */
static uint32_t hash(uint32_t x, uint32_t y, uint32_t seed)
{
    uint32_t v = x * 0x9E3779B1u ^ y * 0x85EBCA77u ^ seed * 0xC2B2AE3Du;
    v = (v ^ v >> 15) * 0x2C1B3C6Du;
    v = (v ^ v >> 12) * 0x297A2D39u;
    return v ^ v >> 15;
}

uint32_t scene_random(uint32_t *state)
{
    *state += 1;
    return hash(*state, 0, 77);
}

/* Noise from 0 to 255 on a lattice of cells of 2^log pixels, bilinear in between. */
static uint32_t cloud(uint32_t x, uint32_t y, uint32_t log, uint32_t seed)
{
    uint32_t cell = 1u << log, left = x >> log, top = y >> log, fx = x & (cell - 1), fy = y & (cell - 1);
    uint32_t a = hash(left, top, seed) >> 24, b = hash(left + 1, top, seed) >> 24;
    uint32_t c = hash(left, top + 1, seed) >> 24, d = hash(left + 1, top + 1, seed) >> 24;
    uint32_t upper = a * (cell - fx) + b * fx, lower = c * (cell - fx) + d * fx;
    return (upper * (cell - fy) + lower * fy) >> (2 * log);
}

/* The light that comes from a place of the scene, 0 to 1023. */
static uint32_t radiance(uint32_t x, uint32_t y, uint32_t seed)
{
    uint32_t clouds = 5 * cloud(x, y, 7, seed) + 4 * cloud(x, y, 5, seed + 1) + 2 * cloud(x, y, 3, seed + 2)
                      + cloud(x, y, 2, seed + 3);
    uint32_t block = hash(x / 24, y / 20, seed + 4) >> 24;
    return (clouds + 4 * block) / 4;
}

/* Frame k's tone curve: steep for long exposures, never clipped. */
static uint8_t exposed(uint32_t light, uint32_t k)
{
    uint32_t half = RADIANCES * 2 / (k + 2);
    return (uint8_t)(light * 255 / (light + half) + light / 64);
}

struct slide scene_slide(uint32_t k)
{
    struct slide s = {(int32_t)(hash(k, 1, 5) % 47) - 23, (int32_t)(hash(k, 2, 5) % 47) - 23};
    return s;
}

void scene_frame(uint32_t seed, uint32_t k, uint32_t w, uint32_t h, uint8_t *raster)
{
    struct slide s = scene_slide(k);
    for (uint32_t y = 0; y < h; y++) {
        for (uint32_t x = 0; x < w; x++) {
            uint32_t sx = ORIGIN + x - (uint32_t)s.x, sy = ORIGIN + y - (uint32_t)s.y;
            uint32_t light = radiance(sx, sy, seed), tint = hash(sx / 24, sy / 20, seed + 5) % 64;
            uint32_t noise = hash(x, y, seed + 100 + k);
            raster[0] = exposed(light + tint + noise % 4, k);
            raster[1] = exposed(light + 32 + (noise >> 8) % 4, k);
            raster[2] = exposed(light + 64 - tint + (noise >> 16) % 4, k);
            raster += 3;
        }
    }
}
