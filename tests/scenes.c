#include "scenes.h"

static uint64_t state;

/* splitmix64 */
uint64_t random_bits(void)
{
    uint64_t z = state += 0x9E3779B97F4A7C15u;
    z = (z ^ z >> 30) * 0xBF58476D1CE4E5B9u;
    z = (z ^ z >> 27) * 0x94D049BB133111EBu;
    return z ^ z >> 31;
}

void random_begin(uint64_t seed, const char *name)
{
    state = seed;
    while (*name)
        state = random_bits() ^ (uint8_t)*name++;
}

uint32_t random_below(uint32_t limit)
{
    return (uint32_t)(random_bits() % limit);
}

int32_t random_between(int32_t low, int32_t high)
{
    return low + (int32_t)random_below((uint32_t)(high - low + 1));
}

void random_bytes(uint8_t *bytes, size_t count)
{
    for (size_t i = 0; i < count; i++)
        bytes[i] = (uint8_t)random_bits();
}

/* ---- Scenes ---- */

struct scene random_scene(uint32_t w, uint32_t h)
{
    struct scene scene;
    int32_t side = (int32_t)(w < h ? w : h);
    for (int i = 0; i < SCENE_BLOBS; i++)
        scene.blobs[i] = (struct blob){ random_between(0, (int32_t)w), random_between(0, (int32_t)h),
                                        random_between(2, 2 + side / 2), random_between(-90, 120) };
    for (int i = 0; i < SCENE_EDGES; i++) {
        int32_t a = random_between(-5, 5), b = random_between(1, 5);
        int32_t c = a * random_between(0, (int32_t)w) + b * random_between(0, (int32_t)h);
        scene.edges[i] = (struct edge){ a, b, c, random_between(-60, 60) };
    }
    return scene;
}

static int32_t clip(int32_t value, int32_t low, int32_t high)
{
    return value < low ? low : value > high ? high : value;
}

static int32_t blob_light(struct blob blob, int32_t x, int32_t y)
{
    int32_t far = (x - blob.x) * (x - blob.x) + (y - blob.y) * (y - blob.y);
    int32_t reach = blob.radius * blob.radius;
    return far < reach ? blob.height * (reach - far) / reach : 0;
}

static int32_t scene_light(const struct scene *scene, int32_t x, int32_t y)
{
    int32_t light = 90;
    for (int i = 0; i < SCENE_BLOBS; i++)
        light += blob_light(scene->blobs[i], x, y);
    for (int i = 0; i < SCENE_EDGES; i++)
        if (scene->edges[i].a * x + scene->edges[i].b * y > scene->edges[i].c)
            light += scene->edges[i].height;
    return clip(light, 0, 255);
}

static int32_t exposed_light(const struct scene *scene, struct exposure by, int32_t x, int32_t y, int32_t most)
{
    int32_t light = scene_light(scene, x + by.x, y + by.y) * by.gain / 64 + by.black;
    return clip(light + random_between(-by.noise, by.noise), 0, most);
}

void expose(const struct scene *scene, struct exposure by, uint32_t w, uint32_t h, uint8_t *raster)
{
    for (uint32_t i = 0; i < w * h; i++) {
        int32_t light = exposed_light(scene, by, (int32_t)(i % w), (int32_t)(i / w), 255);
        raster[3 * i] = (uint8_t)clip(light + 12, 0, 255);
        raster[3 * i + 1] = (uint8_t)light;
        raster[3 * i + 2] = (uint8_t)clip(light * 3 / 4, 0, 255);
    }
}

void expose_grey(const struct scene *scene, struct exposure by, uint32_t w, uint32_t h, uint32_t values, uint8_t *raster)
{
    for (uint32_t i = 0; i < w * h; i++) {
        int32_t light = exposed_light(scene, by, (int32_t)(i % w), (int32_t)(i / w), 255);
        for (int c = 0; c < 3; c++)
            raster[3 * i + c] = (uint8_t)(light * (int32_t)values / 256);
    }
}

/* ---- Tone curves ---- */

void random_curve(uint32_t values, uint8_t curve[256])
{
    uint32_t spare = 256 - values, at = random_below(spare + 1);
    for (uint32_t v = 0; v < values; v++) {
        curve[v] = (uint8_t)(v + at);
        at += random_below((spare - at) / 4 + 1);
    }
}

/* A random colour of this grey; where none is found soon, the grey itself. */
static void colour_of(uint8_t grey, uint8_t *pixel)
{
    for (int tries = 0; tries < 400; tries++) {
        random_bytes(pixel, 3);
        if ((54 * pixel[0] + 183 * pixel[1] + 19 * pixel[2]) / 256 == grey)
            return;
    }
    pixel[0] = pixel[1] = pixel[2] = grey;
}

void re_expose(const uint8_t *raster, size_t pixels, const uint8_t curve[256], uint8_t *out)
{
    for (size_t i = 0; i < pixels; i++)
        colour_of(curve[raster[3 * i]], out + 3 * i);
}

/* ---- Frames made by a formula ---- */

static uint64_t mixed(uint64_t value)
{
    uint64_t once = value % 65536 * 40503 % 65536;
    return (once ^ once / 128) % 65536 * 30011 % 65536 / 256;
}

/* The light of the square cell of this side that holds (x,y). */
static uint64_t cell_light(uint64_t scene, uint64_t side, uint64_t x, uint64_t y)
{
    return mixed(61 * (x / side) + 1009 * (y / side) + 17 * scene + side);
}

static uint64_t made_light(uint64_t scene, uint64_t x, uint64_t y)
{
    return cell_light(scene, 160, x, y) / 3 + cell_light(scene, 40, x, y) / 4 + cell_light(scene, 9, x, y) / 8 +
           cell_light(scene, 1, x, y) / 64;
}

static uint8_t made_byte(struct made by, uint64_t i)
{
    uint64_t pixel = i / 3, row = pixel / by.w, frame = row / by.rows;
    uint64_t x = (pixel % by.w + 3 * frame) % 65536;
    uint64_t y = (row % by.rows + 2 * frame) % 65536;
    return (uint8_t)(made_light(by.scene, x, y) + 20 * (i % 3) + 7 * (frame % 3));
}

void make_frames(struct made by, size_t count, uint8_t *bytes)
{
    for (size_t i = 0; i < count; i++)
        bytes[i] = made_byte(by, i);
}

/* ---- Dull frames ---- */

enum { DULL_VALUES = 4, DULL_WINDOW = 8 };

/* Values in turn along across·x + down·y, each on so many pixels; or at random, each on square cells of such a side. */
struct pattern {
    enum dull kind;
    uint8_t values[DULL_VALUES];
    uint32_t used, side, across, down, scene;
};

static struct pattern random_pattern(enum dull kind)
{
    static const uint32_t ways[3][2] = { { 1, 0 }, { 0, 1 }, { 1, 1 } };
    uint32_t way = random_below(3);
    struct pattern pattern = { .kind = kind, .used = 2 + random_below(DULL_VALUES - 1), .side = 1 + random_below(4),
                               .across = ways[way][0], .down = ways[way][1], .scene = random_below(1000) };
    random_bytes(pattern.values, DULL_VALUES);
    return pattern;
}

static uint8_t pattern_light(const struct pattern *pattern, uint32_t x, uint32_t y)
{
    uint64_t place = 0;
    if (pattern->kind == DULL_STRIPES)
        place = (pattern->across * x + pattern->down * y) / pattern->side;
    if (pattern->kind == DULL_CELLS)
        place = cell_light(pattern->scene, pattern->side, x, y);
    return pattern->values[place % pattern->used];
}

static void put_grey(uint8_t grey, uint8_t *pixel)
{
    pixel[0] = pixel[1] = pixel[2] = grey;
}

static void add_specks(uint32_t pixels, uint8_t *raster)
{
    for (uint32_t specks = 1 + random_below(2); specks > 0; specks--)
        put_grey((uint8_t)random_bits(), raster + 3 * (size_t)random_below(pixels));
}

static void dull_frame(const struct pattern *pattern, uint32_t w, uint32_t h, uint8_t *raster)
{
    uint32_t left = random_below(DULL_WINDOW), top = random_below(DULL_WINDOW);
    for (uint32_t i = 0; i < w * h; i++)
        put_grey(pattern_light(pattern, left + i % w, top + i / w), raster + 3 * (size_t)i);
    if (pattern->kind == DULL_HAZE)
        add_specks(w * h, raster);
}

void dull_frames(enum dull kind, uint32_t w, uint32_t h, uint32_t n, uint8_t *rasters)
{
    struct pattern pattern = random_pattern(kind);
    for (uint32_t k = 0; k < n; k++)
        dull_frame(&pattern, w, h, rasters + k * (3 * (size_t)w * h));
}
