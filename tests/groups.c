#include "groups.h"

#include <stdio.h>
#include <stdlib.h>

uint8_t noise[NOISE_BYTES], ties[NOISE_BYTES];
uint64_t noise_words[NOISE_WORDS];
const uint32_t all_percentiles[3] = { 17, 50, 83 };

void must(bool holds, const char *what)
{
    if (!holds) {
        fprintf(stderr, "make_vectors: must hold: %s\n", what);
        exit(1);
    }
}

void make_noise(uint64_t seed)
{
    random_begin(seed, "noise");
    random_bytes(noise, sizeof noise);
    random_bytes(ties, sizeof ties);
    for (int i = 0; i < NOISE_BYTES; i++)
        ties[i] %= 4;
    for (int i = 0; i < NOISE_WORDS; i++)
        noise_words[i] = random_bits();
}

void keep_noise(void)
{
    keep_bytes(noise, sizeof noise);
    keep_bytes(ties, sizeof ties);
}

uint32_t one_of(const uint32_t *numbers, int count)
{
    return numbers[random_below((uint32_t)count)];
}

/* ---- Frames ---- */

uint8_t *bracket_of(uint32_t w, uint32_t h, uint32_t n, int32_t reach)
{
    size_t size = (size_t)3 * w * h;
    uint8_t *rasters = malloc(n * size + 1);
    struct scene scene = random_scene(w, h);
    for (uint32_t k = 0; k < n; k++) {
        struct exposure by = { random_between(-reach, reach), random_between(-reach, reach), random_between(40, 90),
                               random_between(-20, 20), (int32_t)random_below(3) };
        expose(&scene, by, w, h, rasters + k * size);
    }
    rasters[n * size] = 0; /* one byte more, for a slice that is too long */
    return rasters;
}

/* ---- Moves ---- */

int32_t side_move(uint32_t side, int which)
{
    int32_t w = (int32_t)side;
    const int32_t moves[MOVES] = { 0,  1,     -1,     2,      -2, 63, -63, 64,       -64,           65,       -65,
                                   w,  w - 1, -w,     1 - w,  w + 1, -w - 1, w + 64, INT32_MAX, INT32_MIN, INT32_MIN + 1 };
    return moves[which];
}

/* ---- Pixels that are not left out ---- */

bool keeps(enum kept kind, uint32_t w, uint32_t h, uint32_t x, uint32_t y)
{
    const bool kept[KEPT_KINDS] = { true, false, x == 0, x == w - 1, y == 0, y == h - 1 };
    return kept[kind];
}

/* How much of a side two frames share, one moved along it. */
static uint32_t shared(uint32_t side, int64_t move)
{
    int64_t left = side - (move < 0 ? -move : move);
    return left > 0 ? (uint32_t)left : 0;
}

/* Whether a column or row that was moved to this place lies in the frame. */
static bool inside(uint32_t side, int64_t place)
{
    return 0 <= place && place < side;
}

uint32_t compared_at(enum kept kind, bool second, uint32_t w, uint32_t h, int64_t dx, int64_t dy)
{
    if (!second) /* moved the other way, as the second frame sees it */
        return compared_at(kind, true, w, h, -dx, -dy);
    uint32_t columns = shared(w, dx), rows = shared(h, dy);
    const uint32_t numbers[KEPT_KINDS] = {
        columns * rows,
        0,
        inside(w, dx) ? rows : 0,
        inside(w, w - 1 + dx) ? rows : 0,
        inside(h, dy) ? columns : 0,
        inside(h, h - 1 + dy) ? columns : 0,
    };
    return numbers[kind];
}

/* ---- Breakers ---- */

void break_size(struct vector *v)
{
    static const uint32_t bad[] = { 0, 4097, 65536, 0x7FFFFFFF, 0xFFFFFFFF };
    uint32_t side = one_of(bad, COUNT_OF(bad));
    uint32_t which = random_below(3);
    if (which != 0)
        v->w = side;
    if (which != 1)
        v->h = side;
}

void break_halvings(struct vector *v)
{
    static const uint32_t bad[] = { 9, 10, 31, 32, 64, 256, 0xFFFFFFFF };
    v->s = one_of(bad, COUNT_OF(bad));
}

void break_tolerance(struct vector *v)
{
    static const uint32_t bad[] = { 65, 66, 128, 256, 256 + 64, 65536, 0xFFFFFFFF };
    v->tolerance = one_of(bad, COUNT_OF(bad));
}

void break_band(struct vector *v)
{
    static const uint32_t bad[] = { 17, 18, 64, 65, 256, 256 + 16, 65536, 0xFFFFFFFF };
    v->tolerance = one_of(bad, COUNT_OF(bad));
}

void break_percentile(struct vector *v)
{
    static const uint32_t bad[] = { 0, 1, 16, 18, 49, 51, 82, 84, 99, 100, 256 + 50, 65536 + 17, 0x80000053, 0xFFFFFFFF };
    v->percentile = one_of(bad, COUNT_OF(bad));
}

/* Lengths one off, and an empty slice. */
void break_input(struct vector *v)
{
    uint32_t inputs = v->call == CALL_DIFFERENCE ? 4 : takes_two(v->call) ? 2 : 1;
    struct slice *slice = &v->in[is_series(v->call) ? 1 : random_below(inputs)];
    uint32_t which = random_below(5);
    if (which > 2 || slice->length == 0)
        slice->length += 1;
    else if (which > 0)
        slice->length -= 1;
    else
        slice->length = 0;
}

/* One output too short, and perhaps others. */
void break_output(struct vector *v)
{
    uint32_t outputs = is_series(v->call) ? 3 : is_pair(v->call) || v->call == CALL_BITMAPS ? 2 : 1;
    uint32_t chosen = random_below(outputs);
    for (uint32_t i = 0; i < outputs; i++)
        if (i == chosen || random_below(3) == 0)
            v->out[i] = v->out[i] > 0 && random_below(4) ? v->out[i] - 1 : 0;
}

void break_memory(struct vector *v)
{
    uint32_t which = random_below(4);
    if (which == 0)
        v->grey = v->words = 0;
    if (which == 1 || which == 3)
        v->grey -= 1;
    if (which == 2 || which == 3)
        v->words -= 1;
}

size_t length_of(enum fit fit, size_t needed, size_t excess)
{
    return fit == SHORT ? needed - 1 : fit == FITTING ? needed : needed + excess;
}

/* ---- Refusals in every order ---- */

static uint32_t first_number(const struct breaker *breakers, int count, int mask)
{
    uint32_t first = 0;
    for (int i = count - 1; i >= 0; i--)
        if (mask >> i & 1)
            first = breakers[i].number;
    return first;
}

static void apply_breakers(struct vector *v, const struct breaker *breakers, int count, int mask, bool after)
{
    for (int i = 0; i < count; i++)
        if ((mask >> i & 1) && breakers[i].after == after)
            breakers[i].apply(v);
}

void add_subsets(struct vector good, const struct breaker *breakers, int count, int rounds)
{
    for (int mask = 0; mask < 1 << count; mask++)
        for (int round = 0; round < rounds; round++) {
            struct vector v = good;
            apply_breakers(&v, breakers, count, mask, false);
            fit_lengths(&v);
            apply_breakers(&v, breakers, count, mask, true);
            must(add(&v) == first_number(breakers, count, mask), "the first number that applies is given");
        }
}
