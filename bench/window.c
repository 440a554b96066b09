/* The single difference call at every move of a window, as a program that searches by itself would call it.
 *
 *   window time W H               times all moves by each contestant, a line each
 *   window once NAME W H          all moves once by one contestant inside `measured`, for callgrind
 *
 * Results go to standard output, as words with tabs between.
 */
#include <stdio.h>
#include <stdlib.h>
#include <string.h>

#include "careful.h"
#include "mtb.h"
#include "scene.h"
#include "timing.h"

enum { SEED = 2024, TOLERANCE = 4, PERCENTILE = 50, REACH = 32, SIDE = 2 * REACH + 1, MOVES = SIDE * SIDE, TURNS = 31 };

struct bitmaps {
    uint64_t *threshold, *exclusion;
};

/* Two frames' bitmaps of `len` words. */
struct job {
    uint32_t w, h;
    size_t len;
    struct bitmaps first, second;
};

/* What each move of the window gives. */
struct numbers {
    uint32_t counts[MOVES], compared[MOVES];
};

/* Writes the numbers of move k. */
typedef void counter(const struct job *, int32_t dx, int32_t dy, struct numbers *, size_t k);

static void library(const struct job *j, int32_t dx, int32_t dy, struct numbers *n, size_t k)
{
    if (mtb_difference(j->w, j->h, dx, dy, j->first.threshold, j->len, j->first.exclusion, j->len, j->second.threshold,
                       j->len, j->second.exclusion, j->len, &n->counts[k], &n->compared[k]) != 0)
        fail("the library refused a difference call");
}

/* The careful C program, which counts compared pixels where it is told to write them. */
static void call_careful(const struct job *j, int32_t dx, int32_t dy, uint32_t *count, uint32_t *compared)
{
    careful_difference(j->w, j->h, dx, dy, j->first.threshold, j->first.exclusion, j->second.threshold,
                       j->second.exclusion, count, compared);
}

static void careful(const struct job *j, int32_t dx, int32_t dy, struct numbers *n, size_t k)
{
    call_careful(j, dx, dy, &n->counts[k], &n->compared[k]);
}

static void only_differences(const struct job *j, int32_t dx, int32_t dy, struct numbers *n, size_t k)
{
    call_careful(j, dx, dy, &n->counts[k], NULL);
}

static const struct contestant {
    const char *name;
    counter *count;
    int both; /* it counts compared pixels too */
} contestants[] = {{"library", library, 1}, {"careful C", careful, 1}, {"only differences", only_differences, 0}};

enum { CONTESTANTS = sizeof contestants / sizeof contestants[0] };

/* Frame k of the scene, made grey and thresholded by the library. */
static struct bitmaps bitmaps_of(uint32_t k, uint32_t w, uint32_t h, size_t len)
{
    size_t pixels = (size_t)w * h;
    uint8_t *raster = touched(3 * pixels), *grey = touched(pixels), threshold;
    struct bitmaps b = {touched(8 * len), touched(8 * len)};
    scene_frame(SEED, k, w, h, raster);
    if (mtb_grey(w, h, raster, 3 * pixels, grey, pixels) != 0
        || mtb_threshold(w, h, PERCENTILE, grey, pixels, &threshold) != 0
        || mtb_bitmaps(w, h, threshold, TOLERANCE, grey, pixels, b.threshold, len, b.exclusion, len) != 0)
        fail("the library refused a frame");
    free(raster);
    free(grey);
    return b;
}

static struct job job_of(uint32_t w, uint32_t h)
{
    struct job j = {.w = w, .h = h, .len = (size_t)(w + 63) / 64 * h};
    j.first = bitmaps_of(0, w, h, j.len);
    j.second = bitmaps_of(1, w, h, j.len);
    return j;
}

/* All moves of the window. Callgrind counts between this function's entry and its return. */
__attribute__((noinline)) void measured(counter *count, const struct job *j, struct numbers *n)
{
    for (int32_t k = 0; k < MOVES; k++)
        count(j, k / SIDE - REACH, k % SIDE - REACH, n, (size_t)k);
}

static int same(const struct numbers *a, const struct numbers *b, int both)
{
    return memcmp(a->counts, b->counts, sizeof a->counts) == 0
           && (!both || memcmp(a->compared, b->compared, sizeof a->compared) == 0);
}

/* Contestants in turns; the one that begins changes with each turn. The first turn is not counted. */
static void time_window(const struct job *j)
{
    static struct numbers numbers[CONTESTANTS];
    static uint64_t times[CONTESTANTS][MAX_TURNS];
    for (uint32_t turn = 0; turn <= TURNS; turn++)
        for (uint32_t k = 0; k < CONTESTANTS; k++) {
            uint32_t c = (turn + k) % CONTESTANTS;
            uint64_t start = cpu_ns();
            measured(contestants[c].count, j, &numbers[c]);
            times[c][turn == 0 ? 0 : turn - 1] = cpu_ns() - start;
        }
    for (uint32_t c = 0; c < CONTESTANTS; c++) {
        struct spread t = spread_of(times[c], TURNS);
        if (!same(&numbers[0], &numbers[c], contestants[c].both))
            fail("counts or compared numbers differ from the library's");
        printf("window\t%s\t%llu\t%llu\t%.4f\n", contestants[c].name, (unsigned long long)t.median,
               (unsigned long long)t.least, median_ratio(times[c], times[0], TURNS));
    }
}

static void once(const struct job *j, const char *name)
{
    static struct numbers numbers;
    for (uint32_t c = 0; c < CONTESTANTS; c++)
        if (strcmp(contestants[c].name, name) == 0)
            measured(contestants[c].count, j, &numbers);
}

static uint32_t number(const char *word) { return (uint32_t)strtoul(word, NULL, 10); }

int main(int argc, char **argv)
{
    if (argc == 4 && strcmp(argv[1], "time") == 0) {
        struct job j = job_of(number(argv[2]), number(argv[3]));
        time_window(&j);
    } else if (argc == 5 && strcmp(argv[1], "once") == 0) {
        struct job j = job_of(number(argv[3]), number(argv[4]));
        once(&j, argv[2]);
    } else {
        fail("usage: window time W H | once NAME W H");
    }
    return 0;
}
