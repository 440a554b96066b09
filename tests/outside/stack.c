/* Stack use of every function of mtb.h, measured. Each call runs on a stack of its own that is painted first, once with each of
 * two paints; afterwards the deepest byte that has changed is looked for. What is printed is what the call adds to an empty one:
 * stacked arguments and return address are in it. A byte that is reserved and never written is not seen. */
#include "mtb.h"
#include <stdio.h>
#include <stdlib.h>
#include <string.h>
#include <ucontext.h>

enum { STACK = 1 << 18, FRAMES = 16, LEVELS = 9, HELD = 36 };

/* What the calls are made on. */
enum { COUNTS = 9 * LEVELS * (FRAMES - 1) };
static uint32_t w, h, s, n, number, counts[COUNTS], compared[COUNTS], percentiles[FRAMES - 1], left, right, top, bottom;
static int32_t dx, dy, offsets[2 * FRAMES], held[HELD];
static const int32_t still[2 * FRAMES];
static size_t area, bitmap_len, grey_len, words_len, start, length, written;
static uint8_t *rasters, *grey, *out, threshold;
static bool turned;
static uint64_t *words, *thresholds, *exclusions, *shifted;

static void call_nothing(void) {}
static void call_grey(void) { number = mtb_grey(w, h, rasters, 3 * area, grey, area); }
static void call_halve(void) { number = mtb_halve(w, h, grey, area, out, area); }
static void call_threshold(void) { number = mtb_threshold(w, h, 50, grey, area, &threshold); }
static void call_bitmaps(void) {
    number = mtb_bitmaps(w, h, threshold, 4, grey, area, thresholds, bitmap_len, exclusions, bitmap_len);
}
static void call_shift(void) { number = mtb_shift(w, h, dx, dy, thresholds, bitmap_len, shifted, bitmap_len); }
static void call_total(void) { number = mtb_total(w, h, thresholds, bitmap_len, &left); }
static void call_difference(void) {
    number = mtb_difference(w, h, dx, dy, thresholds, bitmap_len, exclusions, bitmap_len, thresholds, bitmap_len, exclusions,
                            bitmap_len, &left, &right);
}
/* The tolerance or the band is 4. */
#define PAIR_ARGUMENTS                                                                                                          \
    w, h, s, 4, 50, rasters, 3 * area, rasters + 3 * area, 3 * area, &dx, &dy, counts, 9 * (s + 1), compared, 9 * (s + 1), grey, \
        grey_len, words, words_len
static void call_pair(void) { number = mtb_pair(PAIR_ARGUMENTS); }
static void call_pair_ward(void) { number = mtb_pair_ward(PAIR_ARGUMENTS); }
static void call_pair_band(void) { number = mtb_pair_band(PAIR_ARGUMENTS); }
#define SERIES_ARGUMENTS                                                                                                        \
    w, h, s, 4, n, n / 2, percentiles, n - 1, rasters, n * 3 * area, offsets, 2 * n, counts, 9 * (s + 1) * (n - 1), compared,   \
        9 * (s + 1) * (n - 1), grey, grey_len, words, words_len
static void call_series(void) { number = mtb_series(SERIES_ARGUMENTS); }
static void call_series_ward(void) { number = mtb_series_ward(SERIES_ARGUMENTS); }
static void call_series_band(void) { number = mtb_series_band(SERIES_ARGUMENTS); }
static void call_quadrants(void) {
    number = mtb_quadrants(w, h, s, 4, 50, rasters, 3 * area, rasters + 3 * area, 3 * area, offsets, 8, &turned, grey, grey_len, words,
                           words_len);
}
/* A live bracket that holds so many frames, none of which moves; its newest grey stands in `out`. */
static void hold(uint32_t frames) {
    const uint32_t numbers[] = {w, h, s, 4, 50, frames};
    for (int i = 0; i < HELD; i++)
        held[i] = i < 6 ? (int32_t)numbers[i] : 0;
}
static void call_live_start(void) { number = mtb_live_start(w, h, s, 4, 50, held, HELD, out, area); }
static void call_live_add(void) {
    hold(1);
    number = mtb_live_add(held, HELD, out, area, rasters, 3 * area, grey, grey_len, words, words_len);
}
static void call_live_drop(void) {
    hold(FRAMES);
    number = mtb_live_drop(held, HELD, out, area);
}
static void call_live_offsets(void) {
    hold(FRAMES);
    number = mtb_live_offsets(held, HELD, out, area, offsets, 2 * FRAMES, &left);
}
static void call_grey_needed(void) { number = mtb_grey_needed(w, h, s) != grey_len; }
static void call_words_needed(void) { number = mtb_words_needed(w, h, s) != words_len; }
static void call_p6_write(void) { number = mtb_p6_write(w, h, rasters, 3 * area, out, 3 * area + 17, &written); }
static void call_p6_size(void) { number = mtb_p6_size(out, written, &left, &right); }
static void call_p6_raster(void) { number = mtb_p6_raster(out, written, &start, &length); }
static void call_common_area(void) { number = mtb_common_area(w, h, n, still, 2 * n, &left, &right, &top, &bottom); }
static void call_moved(void) { number = mtb_moved(w, h, dx, dy, rasters, 3 * area, out, 3 * area); }
static void call_blink_row(void) {
    number = mtb_blink_row(w, h, h - 1, true, rasters, 3 * area, rasters + 3 * area, 3 * area, &start, &length);
}

enum kind { PLAIN, MOVING, HOLDING, LEVELLED, ALIGNING, QUARTERING };

/* The empty call first, then in an order in which each finds what it reads. */
static const struct {
    const char *name;
    void (*call)(void);
    enum kind kind;
} calls[] = {
    {"(an empty call)", call_nothing, PLAIN},
    {"mtb_grey", call_grey, PLAIN},
    {"mtb_halve", call_halve, PLAIN},
    {"mtb_threshold", call_threshold, PLAIN},
    {"mtb_bitmaps", call_bitmaps, PLAIN},
    {"mtb_shift", call_shift, MOVING},
    {"mtb_total", call_total, PLAIN},
    {"mtb_difference", call_difference, MOVING},
    {"mtb_pair", call_pair, ALIGNING},
    {"mtb_series", call_series, ALIGNING},
    {"mtb_pair_ward", call_pair_ward, ALIGNING},
    {"mtb_series_ward", call_series_ward, ALIGNING},
    {"mtb_pair_band", call_pair_band, ALIGNING},
    {"mtb_series_band", call_series_band, ALIGNING},
    {"mtb_quadrants", call_quadrants, QUARTERING},
    {"mtb_live_start", call_live_start, HOLDING},
    {"mtb_live_add", call_live_add, ALIGNING},
    {"mtb_live_drop", call_live_drop, HOLDING},
    {"mtb_live_offsets", call_live_offsets, HOLDING},
    {"mtb_grey_needed", call_grey_needed, LEVELLED},
    {"mtb_words_needed", call_words_needed, LEVELLED},
    {"mtb_p6_write", call_p6_write, PLAIN},
    {"mtb_p6_size", call_p6_size, PLAIN},
    {"mtb_p6_raster", call_p6_raster, PLAIN},
    {"mtb_common_area", call_common_area, PLAIN},
    {"mtb_moved", call_moved, MOVING},
    {"mtb_blink_row", call_blink_row, PLAIN},
};
enum { CALLS = sizeof calls / sizeof *calls };

static size_t most[CALLS][LEVELS];

static unsigned char stack[STACK];
static ucontext_t here, there;
static int which;
static unsigned char *base;

static void on_painted_stack(void) {
    base = (unsigned char *)__builtin_dwarf_cfa() - 8;
    calls[which].call();
}

static size_t used_over(int paint) {
    size_t i = 0;
    memset(stack, paint, STACK);
    getcontext(&there);
    there.uc_stack.ss_sp = stack;
    there.uc_stack.ss_size = STACK;
    there.uc_link = &here;
    makecontext(&there, on_painted_stack, 0);
    swapcontext(&here, &there);
    while (stack[i] == paint)
        i++;
    return (size_t)(base - (stack + i));
}

static void measure(int call, int32_t move_x, int32_t move_y) {
    const int paints[] = {0x5C, 0xA3};
    which = call;
    for (int p = 0; p < 2; p++) {
        dx = move_x;
        dy = move_y;
        number = 0;
        size_t used = used_over(paints[p]);
        if (used > most[call][s])
            most[call][s] = used;
    }
    if (number != 0 && !(calls[call].call == call_halve && (w < 2 || h < 2)))
        printf("%s refused %u by %u: %u\n", calls[call].name, w, h, number);
}

/* Whether refusal 4 leaves this size and s to the call. */
static bool large_enough(enum kind kind) {
    return kind == ALIGNING || kind == HOLDING ? grey_len > 0 : kind == QUARTERING ? mtb_grey_needed(w / 2, h / 2, s) > 0 : true;
}

/* Every call at this size and s; what does not depend on s only at s = 0. */
static void measure_all(void) {
    static const int32_t moves[][2] = {{0, 0}, {5, -3}, {-64, 2}, {100, 1}, {-1, 5000}, {INT32_MIN, INT32_MAX}};
    for (int call = 0; call < CALLS; call++) {
        enum kind kind = calls[call].kind;
        if (!large_enough(kind) || (s > 0 && kind < LEVELLED))
            continue;
        for (size_t m = 0; m < (kind == MOVING ? sizeof moves / sizeof *moves : 1); m++)
            measure(call, moves[m][0], moves[m][1]);
    }
}

static void *lend(size_t bytes) {
    void *block = calloc(bytes + 8, 1);
    if (block == NULL) {
        fprintf(stderr, "stack: out of memory\n");
        exit(2);
    }
    return block;
}

static void measure_size(uint32_t width, uint32_t height) {
    w = width;
    h = height;
    area = (size_t)w * h;
    bitmap_len = (size_t)((w + 63) / 64) * h;
    n = area > 4000000 ? 2 : FRAMES;
    rasters = lend(n * 3 * area);
    out = lend(3 * area + 17);
    thresholds = lend(8 * bitmap_len);
    exclusions = lend(8 * bitmap_len);
    shifted = lend(8 * bitmap_len);
    for (size_t k = 0; k < n * 3 * area; k++)
        rasters[k] = (uint8_t)((k * 2654435761u) >> 13);
    for (s = 0; s < LEVELS; s++) {
        grey_len = mtb_grey_needed(w, h, s);
        words_len = mtb_words_needed(w, h, s);
        grey = lend(grey_len > area ? grey_len : area);
        words = lend(8 * words_len);
        measure_all();
        free(grey);
        free(words);
    }
    free(rasters);
    free(out);
    free(thresholds);
    free(exclusions);
    free(shifted);
}

int main(void) {
    static const uint32_t sizes[][2] = {{1, 1},       {2, 3},    {4, 4},     {16, 16},     {63, 65},
                                        {64, 64},     {100, 37}, {200, 150}, {640, 480},   {1024, 1024},
                                        {1920, 1080}, {4096, 1}, {1, 4096},  {4096, 1024}, {4096, 4096}};
    for (int k = 0; k < FRAMES - 1; k++)
        percentiles[k] = 50;
    for (size_t i = 0; i < sizeof sizes / sizeof *sizes; i++)
        measure_size(sizes[i][0], sizes[i][1]);
    for (int call = 1; call < CALLS; call++) {
        printf("%-18s", calls[call].name);
        for (int level = 0; level < (calls[call].kind >= ALIGNING ? LEVELS : 1); level++)
            printf(" %5zu", most[call][level] - most[0][0]);
        puts("");
    }
    return 0;
}
