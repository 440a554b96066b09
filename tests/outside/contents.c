#include "contents.h"

#include "../scenes.h"

#include <stdio.h>
#include <stdlib.h>
#include <string.h>

enum { FAR_OFFSET = 32768, MAP = 64, SCENE_BYTES = 200000 };

void *memory(size_t bytes)
{
    void *block = malloc(bytes);
    if (!block) {
        fprintf(stderr, "outside: no memory for %zu bytes\n", bytes);
        exit(2);
    }
    return block;
}

void random_fill(uint8_t *bytes, size_t count)
{
    for (; count >= 8; bytes += 8, count -= 8) {
        uint64_t bits = random_bits();
        memcpy(bytes, &bits, 8);
    }
    random_bytes(bytes, count);
}

/* ---- Grey frames and rasters ---- */

/* Only a few values, so that a threshold has many pixels on it. */
static void fill_few(uint8_t *bytes, size_t count)
{
    uint8_t values[4];
    random_bytes(values, 4);
    uint32_t used = 1 + random_below(4);
    for (size_t i = 0; i < count; i++)
        bytes[i] = values[random_below(used)];
}

/* Values close together, so that the tolerance decides. */
static void fill_close(uint8_t *bytes, size_t count)
{
    uint32_t spread = 1 + random_below(140), low = random_below(257 - spread);
    for (size_t i = 0; i < count; i++)
        bytes[i] = (uint8_t)(low + random_below(spread));
}

static void fill_any(uint8_t *bytes, size_t count)
{
    switch (random_below(3)) {
    case 0:
        fill_few(bytes, count);
        break;
    case 1:
        fill_close(bytes, count);
        break;
    default:
        random_fill(bytes, count);
    }
}

uint8_t *make_grey(uint32_t w, uint32_t h)
{
    uint8_t *grey = memory((size_t)w * h);
    fill_any(grey, (size_t)w * h);
    return grey;
}

static struct exposure random_exposure(void)
{
    static const int32_t gains[] = { 8, 16, 32, 48, 64, 96, 160 };
    return (struct exposure){ random_between(-12, 12), random_between(-12, 12), gains[random_below(7)], random_between(0, 40),
                              random_below(2) ? random_between(0, 6) : 0 };
}

/* The same scene through windows that move; now and then the same frame again. */
static void fill_scene(uint8_t *rasters, uint32_t w, uint32_t h, uint32_t n)
{
    struct scene scene = random_scene(w, h);
    size_t one = 3 * (size_t)w * h;
    for (uint32_t k = 0; k < n; k++)
        if (k > 0 && random_below(8) == 0)
            memcpy(rasters + k * one, rasters + (k - 1) * one, one);
        else
            expose(&scene, random_exposure(), w, h, rasters + k * one);
}

/* A town map: blocks of 16 by 16 pixels with a grain of single ones, quickly made where a scene takes too long. */
static void fill_town(const uint8_t map[MAP][MAP], struct exposure by, uint32_t w, uint32_t h, uint8_t *raster)
{
    for (uint32_t i = 0; i < w * h; i++) {
        uint32_t x = i % w + (uint32_t)by.x + MAP, y = i / w + (uint32_t)by.y + MAP;
        uint32_t light = map[y / 16 % MAP][x / 16 % MAP] + map[y % MAP][x % MAP] / 8u;
        light = light * (uint32_t)by.gain / 128 + (uint32_t)by.black;
        memset(raster + 3 * (size_t)i, (uint8_t)(light < 255 ? light : 255), 3);
    }
}

static void fill_towns(uint8_t *rasters, uint32_t w, uint32_t h, uint32_t n)
{
    uint8_t map[MAP][MAP];
    random_fill(map[0], sizeof map);
    for (uint32_t k = 0; k < n; k++)
        fill_town(map, random_exposure(), w, h, rasters + k * 3 * (size_t)w * h);
}

uint8_t *make_rasters(uint32_t w, uint32_t h, uint32_t n)
{
    size_t count = 3 * (size_t)w * h * n;
    uint8_t *rasters = memory(count);
    uint32_t kind = random_below(3);
    if (kind == 0)
        fill_any(rasters, count);
    else if (count > SCENE_BYTES || random_below(2))
        fill_towns(rasters, w, h, n);
    else
        fill_scene(rasters, w, h, n);
    return rasters;
}

/* Greys of this many values at most, R = G = B. */
static void take_colour(uint8_t *raster, size_t pixels, uint32_t values)
{
    for (size_t i = 0; i < pixels; i++)
        memset(raster + 3 * i, (uint8_t)(raster[3 * i + 1] * values / 256), 3);
}

uint8_t *re_exposed(uint32_t w, uint32_t h, uint8_t *rasters, size_t bytes)
{
    uint8_t *exposed = memory(bytes), curve[256];
    size_t one = 3 * (size_t)w * h;
    for (size_t at = 0; at < bytes; at++) {
        if (at % one == 0) {
            uint32_t values = 2 + random_below(254);
            take_colour(rasters + at, one / 3, values);
            random_curve(values, curve);
        }
        exposed[at] = curve[rasters[at]];
    }
    return exposed;
}

/* Squares of 16, 4 and 1 pixels over each other: something to see on every level, in every quadrant. */
static void fill_squares(uint8_t *raster, uint32_t w, uint32_t h)
{
    uint8_t map[MAP][MAP];
    random_fill(map[0], sizeof map);
    for (uint32_t i = 0; i < w * h; i++) {
        uint32_t x = i % w, y = i / w;
        uint32_t light = map[y / 16 % MAP][x / 16 % MAP] / 3u + map[y / 4 % MAP][x / 4 % MAP] / 3u + map[y % MAP][x % MAP] / 3u;
        memset(raster + 3 * (size_t)i, (uint8_t)light, 3);
    }
}

/* How the pixels of a quadrant come from the first raster: moved, and darkened in both. */
struct quarter {
    int32_t dx, dy;
    uint32_t shade;
};

/* Two of the quadrants 2 apart on an axis, the others between them. */
static void part_two(struct quarter quarters[4])
{
    uint32_t one = random_below(4), other = (one + 1 + random_below(3)) % 4;
    int32_t across = random_below(2), down = 1 - across;
    quarters[one].dx -= across;
    quarters[one].dy -= down;
    quarters[other].dx += across;
    quarters[other].dy += down;
}

/* Moves alike, 1 apart at most, or just two of them 2 apart; each quadrant with its own brightness. */
static void choose_quarters(struct quarter quarters[4])
{
    int32_t x = random_below(2) ? 0 : random_between(-3, 3), y = random_below(2) ? 0 : random_between(-3, 3);
    uint32_t kind = random_below(4), spread = kind == 1 ? 2 : 1, shades = 1 + random_below(2);
    for (int q = 0; q < 4; q++)
        quarters[q] = (struct quarter){ x + (int32_t)random_below(spread), y + (int32_t)random_below(spread), random_below(shades) };
    if (kind > 1)
        part_two(quarters);
}

/* The place that is moved onto this one, the nearest at an edge. */
static uint32_t moved_from(uint32_t place, int32_t move, uint32_t side)
{
    int64_t from = (int64_t)place + move, last = (int64_t)side - 1;
    return (uint32_t)(from < 0 ? 0 : from > last ? last : from);
}

static void slide_quarters(const uint8_t *first, uint32_t w, uint32_t h, const struct quarter quarters[4], uint8_t *second)
{
    for (uint32_t i = 0; i < w * h; i++) {
        const struct quarter *quarter = &quarters[(i % w >= w - w / 2) + 2 * (i / w >= h - h / 2)];
        uint32_t x = moved_from(i % w, quarter->dx, w), y = moved_from(i / w, quarter->dy, h);
        memcpy(second + 3 * (size_t)i, first + 3 * ((size_t)y * w + x), 3);
    }
}

static void shade_quarters(uint32_t w, uint32_t h, const struct quarter quarters[4], uint8_t *raster)
{
    for (uint32_t i = 0; i < 3 * w * h; i++)
        raster[i] >>= quarters[(i / 3 % w >= w - w / 2) + 2 * (i / 3 / w >= h - h / 2)].shade;
}

uint8_t *make_quartered(uint32_t w, uint32_t h)
{
    size_t one = 3 * (size_t)w * h;
    uint8_t *both = make_rasters(w, h, 2);
    struct quarter quarters[4];
    if (random_below(4) == 0)
        return both;
    if (random_below(4) > 0)
        fill_squares(both, w, h);
    choose_quarters(quarters);
    slide_quarters(both, w, h, quarters, both + one);
    shade_quarters(w, h, quarters, both);
    shade_quarters(w, h, quarters, both + one);
    return both;
}

/* ---- Bitmaps ---- */

/* Words with few, many, half, all or no bits, those past the width included: these have to be read as 0. */
uint8_t *make_bitmap(size_t words)
{
    uint64_t *bitmap = memory(words * sizeof *bitmap);
    uint32_t kind = random_below(5);
    for (size_t i = 0; i < words; i++) {
        uint64_t bits = random_bits();
        if (kind == 0)
            bits &= random_bits() & random_bits();
        else if (kind == 1)
            bits |= random_bits() | random_bits();
        else if (kind == 2)
            bits = random_below(4) ? UINT64_MAX : 0;
        bitmap[i] = bits;
    }
    return (uint8_t *)bitmap;
}

/* ---- Numbers ---- */

uint8_t *make_percentiles(size_t n, bool bad)
{
    static const uint32_t good[] = { 17, 50, 83 };
    uint32_t *percentiles = memory(n * sizeof *percentiles);
    for (size_t i = 0; i < n; i++)
        percentiles[i] = good[random_below(3)];
    if (bad && n > 0) {
        static const uint32_t none[] = { 0, 49, 51, 16, 84, 100, 256 + 50, 65536 + 83, UINT32_MAX };
        percentiles[random_below((uint32_t)n)] = none[random_below(9)];
    }
    return (uint8_t *)percentiles;
}

/* Offsets of one axis in `low` to `high`, two apart. */
static void fill_axis(int32_t *offsets, uint32_t n, int32_t low, int32_t high)
{
    for (uint32_t k = 0; k < n; k++)
        offsets[2 * k] = random_between(low, high);
}

/* Within these every frame has the column or row `kept` in common. */
static void fill_common(int32_t *offsets, uint32_t n, uint32_t side)
{
    int32_t last = side ? (int32_t)side - 1 : 0, kept = random_between(0, last);
    fill_axis(offsets, n, kept - last, kept);
}

/* One frame moved out of sight, or two moved apart. */
static void part_axis(int32_t *offsets, uint32_t n, uint32_t side)
{
    int32_t limit = FAR_OFFSET - 1, far = (int32_t)side + (random_below(2) ? 0 : random_between(0, 100));
    int32_t move = random_below(4) ? far : random_below(2) ? limit : -limit - 1;
    uint32_t one = random_below(n), other = random_below(n);
    offsets[2 * one] = random_below(2) ? move : -move - (move < -limit);
    if (one != other && far <= limit && side > 1) {
        int32_t part = 1 + (int32_t)random_below(side - 1);
        offsets[2 * one] = part;
        offsets[2 * other] = part - far;
    }
}

static int32_t far_offset(void)
{
    static const int32_t far[] = { FAR_OFFSET, -FAR_OFFSET - 1, 65536, -65536, INT32_MAX, INT32_MIN };
    return far[random_below(6)];
}

uint8_t *make_offsets(const struct trial *t, uint32_t n)
{
    int32_t *offsets = memory(2 * (size_t)n * sizeof *offsets);
    fill_common(offsets, n, t->made_for.w);
    fill_common(offsets + 1, n, t->made_for.h);
    uint32_t axis = random_below(2);
    if (n > 0 && t->want[13])
        part_axis(offsets + axis, n, axis ? t->made_for.h : t->made_for.w);
    if (n > 0 && t->want[12])
        offsets[random_below(2 * n)] = far_offset();
    return (uint8_t *)offsets;
}
