/* Calls of the reference on lent buffers with known contents. */
#include "reference.h"
#include "vectors.h"

#include <stdio.h>
#include <stdlib.h>
#include <string.h>

enum { SMALL_SIDE = 4, MAX_SIDE = 4096, MAX_S = 8, MAX_N = 17, HELD_NUMBERS = 36 };

static void *memory(size_t bytes)
{
    void *new = calloc(bytes ? bytes : 1, 1);
    if (!new)
        exit(2);
    return new;
}

/* ---- Exact lengths ---- */

static size_t least(size_t a, size_t b)
{
    return a < b ? a : b;
}

static size_t digits(uint32_t number)
{
    return number < 10 ? 1 : 1 + digits(number / 10);
}

static void fit_memory(struct vector *v, uint32_t w, uint32_t h, uint32_t s)
{
    v->grey = 0;
    v->words = 6 * (size_t)((w + 63) / 64) * h;
    for (uint32_t level = 0; level <= s; level++)
        v->grey += 2 * (size_t)(w >> level) * (h >> level);
}

static void fit_series(struct vector *v, size_t raster, size_t s)
{
    size_t n = least(v->n, MAX_N), pairs = n ? n - 1 : 0;
    v->in[0].length = pairs;
    v->in[1].length = n * raster;
    v->out[0] = 2 * n;
    v->out[1] = v->out[2] = pairs * 9 * (s + 1);
}

/* Inputs are those of the frame, work memory that of a quadrant. */
static void fit_quadrants(struct vector *v, uint32_t w, uint32_t h, uint32_t s)
{
    v->out[0] = 8;
    v->out[1] = 0;
    fit_memory(v, w / 2, h / 2, s);
}

/* The numbers, the newest grey, the raster of an add; what is told of n frames. */
static void fit_live(struct vector *v, size_t area)
{
    v->in[0].length = HELD_NUMBERS;
    v->in[1].length = area;
    v->in[2].length = 3 * area;
    v->out[0] = 2 * least(v->n, MAX_N);
}

void fit_lengths(struct vector *v)
{
    uint32_t w = 0 < v->w && v->w <= MAX_SIDE ? v->w : SMALL_SIDE;
    uint32_t h = 0 < v->h && v->h <= MAX_SIDE ? v->h : SMALL_SIDE;
    uint32_t s = (uint32_t)least(v->s, MAX_S);
    size_t area = (size_t)w * h, raster = 3 * area, bitmap = (size_t)((w + 63) / 64) * h;
    bool frame = v->call == CALL_HALVE || v->call == CALL_THRESHOLD || v->call == CALL_BITMAPS;
    bool words = v->call == CALL_SHIFT || v->call == CALL_TOTAL || v->call == CALL_DIFFERENCE;
    for (int i = 0; i < 4; i++)
        v->in[i].length = frame ? area : words ? bitmap : raster;
    v->out[0] = v->call == CALL_GREY      ? area
                : v->call == CALL_HALVE   ? (size_t)(w / 2) * (h / 2)
                : is_pair(v->call)        ? 9 * (size_t)(s + 1)
                : v->call == CALL_P6_WRITE ? 9 + digits(w) + digits(h) + raster
                : v->call == CALL_MOVED   ? raster
                                          : bitmap;
    v->out[1] = is_pair(v->call) ? v->out[0] : bitmap;
    fit_memory(v, w, h, s);
    if (is_series(v->call))
        fit_series(v, raster, s);
    if (is_quadrants(v->call))
        fit_quadrants(v, w, h, s);
    if (is_live(v->call))
        fit_live(v, area);
    if (v->call == CALL_AREA)
        v->in[0].length = 2 * least(v->n, MAX_N);
}

/* ---- Lent buffers ---- */

static uint8_t *lent_bytes(size_t count)
{
    uint8_t *bytes = memory(count);
    for (size_t i = 0; i < count; i++)
        bytes[i] = (uint8_t)(i % 251);
    return bytes;
}

static uint64_t *lent_words(size_t count)
{
    uint64_t *words = memory(8 * count);
    for (size_t i = 0; i < count; i++)
        words[i] = 0xA5A5A5A5A5A5A5A5u;
    return words;
}

static uint32_t *lent_numbers(size_t count, uint32_t each)
{
    uint32_t *numbers = memory(4 * count);
    for (size_t i = 0; i < count; i++)
        numbers[i] = each;
    return numbers;
}

static uint32_t *lent_counts(size_t count)
{
    return lent_numbers(count, 0xC3C3C3C3u);
}

static uint32_t *lent_compared(size_t count)
{
    return lent_numbers(count, 0xB4B4B4B4u);
}

static int32_t *lent_offsets(size_t count)
{
    int32_t *offsets = memory(4 * count);
    for (size_t i = 0; i < count; i++)
        offsets[i] = 0x5A5A5A5A;
    return offsets;
}

static void *hold(struct answer *a, int which, void *buffer, size_t bytes, bool whole)
{
    a->out[which] = buffer;
    a->out_bytes[which] = bytes;
    a->whole[which] = whole;
    return buffer;
}

/* What is held, read and written: an output that begins as the input. */
static void *hold_input(struct answer *a, int which, const struct slice *input, size_t element, bool whole)
{
    void *held = memory(input->length * element);
    if (input->length > 0)
        memcpy(held, input->data, input->length * element);
    return hold(a, which, held, input->length * element, whole);
}

/* No count is above its compared number, or the run ends. */
static void check_counts(const uint32_t *counts, const uint32_t *compared, size_t count)
{
    for (size_t i = 0; i < count; i++)
        if (counts[i] > compared[i]) {
            fprintf(stderr, "a count of %u out of %u\n", (unsigned)counts[i], (unsigned)compared[i]);
            abort();
        }
}

/* ---- A function a call ---- */

static void answer_grey(const struct vector *v, struct answer *a)
{
    uint8_t *out = hold(a, 0, lent_bytes(v->out[0]), v->out[0], false);
    a->refusal = ref_grey(v->w, v->h, v->in[0].data, v->in[0].length, out, v->out[0]);
}

static void answer_halve(const struct vector *v, struct answer *a)
{
    uint8_t *out = hold(a, 0, lent_bytes(v->out[0]), v->out[0], false);
    a->refusal = ref_halve(v->w, v->h, v->in[0].data, v->in[0].length, out, v->out[0]);
}

static void answer_threshold(const struct vector *v, struct answer *a)
{
    uint8_t threshold = 0;
    a->refusal = ref_threshold(v->w, v->h, v->percentile, v->in[0].data, v->in[0].length, &threshold);
    a->values[0] = threshold;
}

static void answer_bitmaps(const struct vector *v, struct answer *a)
{
    uint64_t *thresholds = hold(a, 0, lent_words(v->out[0]), 8 * v->out[0], false);
    uint64_t *exclusions = hold(a, 1, lent_words(v->out[1]), 8 * v->out[1], false);
    a->refusal = ref_bitmaps(v->w, v->h, (uint8_t)v->percentile, v->tolerance, v->in[0].data, v->in[0].length, thresholds,
                             v->out[0], exclusions, v->out[1]);
}

static void answer_shift(const struct vector *v, struct answer *a)
{
    uint64_t *out = hold(a, 0, lent_words(v->out[0]), 8 * v->out[0], false);
    a->refusal = ref_shift(v->w, v->h, v->dx, v->dy, v->in[0].data, v->in[0].length, out, v->out[0]);
}

static void answer_total(const struct vector *v, struct answer *a)
{
    a->refusal = ref_total(v->w, v->h, v->in[0].data, v->in[0].length, &a->values[0]);
}

static void answer_difference(const struct vector *v, struct answer *a)
{
    a->refusal = ref_difference(v->w, v->h, v->dx, v->dy, v->in[0].data, v->in[0].length, v->in[1].data, v->in[1].length,
                                v->in[2].data, v->in[2].length, v->in[3].data, v->in[3].length, &a->values[0],
                                &a->values[1]);
    check_counts(&a->values[0], &a->values[1], 1);
}

static void ask_pair(__typeof__(ref_pair) *pair, const struct vector *v, struct answer *a)
{
    int32_t dx = 0, dy = 0;
    uint32_t *counts = hold(a, 0, lent_counts(v->out[0]), 4 * v->out[0], true);
    uint32_t *compared = hold(a, 1, lent_compared(v->out[1]), 4 * v->out[1], true);
    a->refusal = pair(v->w, v->h, v->s, v->tolerance, v->percentile, v->in[0].data, v->in[0].length, v->in[1].data,
                      v->in[1].length, &dx, &dy, counts, v->out[0], compared, v->out[1], NULL, v->grey, NULL, v->words);
    if (a->refusal == 0)
        check_counts(counts, compared, 9 * ((size_t)v->s + 1));
    a->values[0] = (uint32_t)dx;
    a->values[1] = (uint32_t)dy;
}

static void answer_pair(const struct vector *v, struct answer *a)
{
    ask_pair(ref_pair, v, a);
}

static void answer_pair_ward(const struct vector *v, struct answer *a)
{
    ask_pair(ref_pair_ward, v, a);
}

static void answer_pair_band(const struct vector *v, struct answer *a)
{
    ask_pair(ref_pair_band, v, a);
}

static void ask_series(__typeof__(ref_series) *series, const struct vector *v, struct answer *a)
{
    int32_t *offsets = hold(a, 0, lent_offsets(v->out[0]), 4 * v->out[0], true);
    uint32_t *counts = hold(a, 1, lent_counts(v->out[1]), 4 * v->out[1], true);
    uint32_t *compared = hold(a, 2, lent_compared(v->out[2]), 4 * v->out[2], true);
    a->refusal = series(v->w, v->h, v->s, v->tolerance, v->n, v->r, v->in[0].data, v->in[0].length, v->in[1].data,
                        v->in[1].length, offsets, v->out[0], counts, v->out[1], compared, v->out[2], NULL, v->grey, NULL,
                        v->words);
    if (a->refusal == 0)
        check_counts(counts, compared, (v->n - 1) * 9 * ((size_t)v->s + 1));
}

static void answer_series(const struct vector *v, struct answer *a)
{
    ask_series(ref_series, v, a);
}

static void answer_series_ward(const struct vector *v, struct answer *a)
{
    ask_series(ref_series_ward, v, a);
}

static void answer_series_band(const struct vector *v, struct answer *a)
{
    ask_series(ref_series_band, v, a);
}

static void answer_quadrants(const struct vector *v, struct answer *a)
{
    bool turned = false;
    int32_t *offsets = hold(a, 0, lent_offsets(v->out[0]), 4 * v->out[0], true);
    a->refusal = ref_quadrants(v->w, v->h, v->s, v->tolerance, v->percentile, v->in[0].data, v->in[0].length, v->in[1].data,
                               v->in[1].length, offsets, v->out[0], &turned, NULL, v->grey, NULL, v->words);
    a->values[0] = turned;
}

static void answer_live_start(const struct vector *v, struct answer *a)
{
    int32_t *held = hold_input(a, 0, &v->in[0], sizeof *held, true);
    uint8_t *newest = hold_input(a, 1, &v->in[1], 1, false);
    a->refusal = ref_live_start(v->w, v->h, v->s, v->tolerance, v->percentile, held, v->in[0].length, newest, v->in[1].length);
}

static void answer_live_add(const struct vector *v, struct answer *a)
{
    int32_t *held = hold_input(a, 0, &v->in[0], sizeof *held, true);
    uint8_t *newest = hold_input(a, 1, &v->in[1], 1, false);
    a->refusal = ref_live_add(held, v->in[0].length, newest, v->in[1].length, v->in[2].data, v->in[2].length, NULL, v->grey, NULL,
                              v->words);
}

static void answer_live_drop(const struct vector *v, struct answer *a)
{
    int32_t *held = hold_input(a, 0, &v->in[0], sizeof *held, true);
    uint8_t *newest = hold_input(a, 1, &v->in[1], 1, false);
    a->refusal = ref_live_drop(held, v->in[0].length, newest, v->in[1].length);
}

static void answer_live_offsets(const struct vector *v, struct answer *a)
{
    int32_t *offsets = hold(a, 0, lent_offsets(v->out[0]), 4 * v->out[0], true);
    a->refusal = ref_live_offsets(v->in[0].data, v->in[0].length, v->in[1].data, v->in[1].length, offsets, v->out[0], &a->values[0]);
}

static void answer_p6_read(const struct vector *v, struct answer *a)
{
    size_t start = 0, length = 0;
    a->refusal = ref_p6_size(v->in[0].data, v->in[0].length, &a->values[0], &a->values[1]);
    if (a->refusal != ref_p6_raster(v->in[0].data, v->in[0].length, &start, &length))
        abort();
    a->values[2] = (uint32_t)start;
    a->values[3] = (uint32_t)length;
}

static void answer_p6_write(const struct vector *v, struct answer *a)
{
    size_t written = 0;
    uint8_t *out = hold(a, 0, lent_bytes(v->out[0]), v->out[0], false);
    a->refusal = ref_p6_write(v->w, v->h, v->in[0].data, v->in[0].length, out, v->out[0], &written);
    a->values[0] = (uint32_t)written;
}

static void answer_area(const struct vector *v, struct answer *a)
{
    a->refusal = ref_common_area(v->w, v->h, v->n, v->in[0].data, v->in[0].length, &a->values[0], &a->values[1],
                                 &a->values[2], &a->values[3]);
}

static void answer_moved(const struct vector *v, struct answer *a)
{
    uint8_t *out = hold(a, 0, lent_bytes(v->out[0]), v->out[0], false);
    a->refusal = ref_moved(v->w, v->h, v->dx, v->dy, v->in[0].data, v->in[0].length, out, v->out[0]);
}

static void answer_blink(const struct vector *v, struct answer *a)
{
    size_t start = 0, length = 0;
    a->refusal = ref_blink_row(v->w, v->h, v->r, v->s == 1, v->in[0].data, v->in[0].length, v->in[1].data,
                               v->in[1].length, &start, &length);
    a->values[0] = (uint32_t)start;
    a->values[1] = (uint32_t)length;
}

/* The text, and the whole buffer that it was written into. */
static void answer_bracket(const struct vector *v, struct answer *a)
{
    uint8_t *text = memory(REF_BRACKET_ROOM), *out = lent_bytes(REF_BRACKET_ROOM);
    size_t length = ref_bracket(v->in[0].data, v->in[0].length, v->in[1].data, v->in[1].length, v->in[2].data,
                                v->in[2].length, text);
    memcpy(out, text, length);
    hold(a, 0, text, length, true);
    hold(a, 1, out, REF_BRACKET_ROOM, false);
}

struct answer answer_of(const struct vector *v)
{
    static void (*const answers[])(const struct vector *, struct answer *) = {
        [CALL_GREY] = answer_grey,           [CALL_HALVE] = answer_halve,
        [CALL_THRESHOLD] = answer_threshold, [CALL_BITMAPS] = answer_bitmaps,
        [CALL_SHIFT] = answer_shift,         [CALL_TOTAL] = answer_total,
        [CALL_DIFFERENCE] = answer_difference, [CALL_PAIR] = answer_pair,
        [CALL_SERIES] = answer_series,       [CALL_MADE_PAIR] = answer_pair,
        [CALL_MADE_SERIES] = answer_series,  [CALL_P6_READ] = answer_p6_read,
        [CALL_P6_WRITE] = answer_p6_write,   [CALL_AREA] = answer_area,
        [CALL_MOVED] = answer_moved,         [CALL_BLINK] = answer_blink,
        [CALL_BRACKET] = answer_bracket,     [CALL_PAIR_WARD] = answer_pair_ward,
        [CALL_SERIES_WARD] = answer_series_ward, [CALL_MADE_PAIR_WARD] = answer_pair_ward,
        [CALL_MADE_SERIES_WARD] = answer_series_ward, [CALL_QUADRANTS] = answer_quadrants,
        [CALL_MADE_QUADRANTS] = answer_quadrants, [CALL_PAIR_BAND] = answer_pair_band,
        [CALL_SERIES_BAND] = answer_series_band, [CALL_MADE_PAIR_BAND] = answer_pair_band,
        [CALL_MADE_SERIES_BAND] = answer_series_band, [CALL_LIVE_START] = answer_live_start,
        [CALL_LIVE_ADD] = answer_live_add,   [CALL_LIVE_DROP] = answer_live_drop,
        [CALL_LIVE_OFFSETS] = answer_live_offsets,
    };
    struct answer a = { 0 };
    answers[v->call](v, &a);
    return a;
}

void free_answer(struct answer answer)
{
    for (int i = 0; i < MOST_OUTPUTS; i++)
        free(answer.out[i]);
}
