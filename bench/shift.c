/* The offered shift at moves of a few pixels, beside memcpy of the bitmap.
 *
 *   shift agree JOBS              compares the library with the careful C shift on random bitmaps and moves
 *   shift time                    times every size of the page, a line each contestant
 *   shift once NAME W H           all moves once by one contestant inside `measured`, for callgrind
 *
 * Results go to standard output, as words with tabs between.
 */
#include <stdio.h>
#include <stdlib.h>
#include <string.h>

#include "mtb.h"
#include "scene.h"
#include "timing.h"

enum { SEED = 2024, REACH = 3, SIDE = 2 * REACH + 1, MOVES = SIDE * SIDE, TURNS = 61 };

/* A bitmap of n words a row, and where it is shifted to. */
struct job {
    uint32_t w, h;
    size_t n, len;
    uint64_t *bitmap, *out;
};

typedef void shifter(const struct job *, int32_t dx, int32_t dy);

static void library(const struct job *j, int32_t dx, int32_t dy)
{
    if (mtb_shift(j->w, j->h, dx, dy, j->bitmap, j->len, j->out, j->len) != 0)
        fail("the library refused a shift");
}

static uint64_t low_bits(int64_t n) { return n < 64 ? ((uint64_t)1 << n) - 1 : ~(uint64_t)0; }

/* Word k of a row, 0 outside it, with its bits past w as 0. */
static uint64_t word_at(const struct job *j, const uint64_t *row, int64_t k)
{
    return k < 0 || k >= (int64_t)j->n ? 0 : row[k] & low_bits((int64_t)j->w - 64 * k);
}

static uint64_t joined(uint64_t high, uint64_t low, unsigned r) { return high << r | low >> 1 >> (63 - r); }

static int64_t clamped(int64_t v, int64_t least, int64_t most) { return v < least ? least : v > most ? most : v; }

/* A row moved by 64q + r: words made of two full words of the row with no test, those beside them one by one. */
static void careful_row(const struct job *j, const uint64_t *restrict row, uint64_t *restrict out, int64_t q, unsigned r)
{
    int64_t n = (int64_t)j->n, end = clamped(j->w / 64 + q, 0, n), first = clamped(q + 1, 0, end);
    for (int64_t k = 0; k < first; k++)
        out[k] = joined(word_at(j, row, k - q), word_at(j, row, k - q - 1), r);
    for (int64_t k = first; k < end; k++)
        out[k] = joined(row[k - q], row[k - q - 1], r);
    for (int64_t k = end; k < n; k++)
        out[k] = joined(word_at(j, row, k - q), word_at(j, row, k - q - 1), r);
    out[n - 1] &= low_bits((int64_t)j->w - 64 * (n - 1));
}

static void careful(const struct job *j, int32_t dx, int32_t dy)
{
    unsigned r = (unsigned)dx & 63;
    int64_t q = ((int64_t)dx - r) / 64;
    for (int64_t y = 0; y < j->h; y++) {
        int64_t z = y - dy;
        if (z < 0 || z >= j->h)
            memset(j->out + (size_t)y * j->n, 0, 8 * j->n);
        else
            careful_row(j, j->bitmap + (size_t)z * j->n, j->out + (size_t)y * j->n, q, r);
    }
}

static void copy(const struct job *j, int32_t dx, int32_t dy)
{
    (void)dx, (void)dy;
    memcpy(j->out, j->bitmap, 8 * j->len);
}

static const struct contestant {
    const char *name;
    shifter *run;
} contestants[] = {{"library", library}, {"careful C", careful}, {"memcpy", copy}};

enum { CONTESTANTS = sizeof contestants / sizeof contestants[0] };

/* Random bits, past the width too. */
static struct job job_of(uint32_t w, uint32_t h, uint32_t *state)
{
    struct job j = {.w = w, .h = h, .n = (size_t)(w + 63) / 64};
    j.len = j.n * h;
    j.bitmap = touched(8 * j.len);
    j.out = touched(8 * j.len);
    for (size_t i = 0; i < j.len; i++)
        j.bitmap[i] = (uint64_t)scene_random(state) << 32 ^ scene_random(state);
    return j;
}

static void give_back(struct job *j)
{
    free(j->bitmap);
    free(j->out);
}

/* ---- agree ---- */

static void compare(const struct job *j, int32_t dx, int32_t dy, uint64_t *kept)
{
    library(j, dx, dy);
    memcpy(kept, j->out, 8 * j->len);
    careful(j, dx, dy);
    if (memcmp(kept, j->out, 8 * j->len) != 0)
        fail("a shifted bitmap differs from the library's");
}

/* Moves within the frame and a little beyond, one in four of any size. */
static int32_t random_move(uint32_t side, uint32_t *state)
{
    if (scene_random(state) % 4 == 0)
        return (int32_t)scene_random(state);
    return (int32_t)(scene_random(state) % (2 * side + 131)) - (int32_t)(side + 65);
}

static void agree(uint32_t jobs)
{
    uint32_t state = SEED;
    for (uint32_t i = 0; i < jobs; i++) {
        uint32_t w = 1 + scene_random(&state) % 400, h = 1 + scene_random(&state) % 100;
        struct job j = job_of(w, h, &state);
        uint64_t *kept = touched(8 * j.len);
        compare(&j, random_move(w, &state), random_move(h, &state), kept);
        free(kept);
        give_back(&j);
    }
    printf("agree shift\t%u\n", jobs);
}

/* ---- time ---- */

/* All moves of the window. Callgrind counts between this function's entry and its return. */
__attribute__((noinline)) void measured(shifter *run, const struct job *j)
{
    for (int32_t k = 0; k < MOVES; k++)
        run(j, k / SIDE - REACH, k % SIDE - REACH);
    __asm__ volatile("" ::: "memory");
}

/* Contestants in turns; the one that begins changes with each turn. The first turn is not counted. */
static void time_job(uint32_t w, uint32_t h)
{
    static uint64_t times[CONTESTANTS][MAX_TURNS];
    uint32_t state = SEED;
    struct job j = job_of(w, h, &state);
    fprintf(stderr, "shift: %u by %u, %u turns\n", w, h, TURNS);
    for (uint32_t turn = 0; turn <= TURNS; turn++)
        for (uint32_t k = 0; k < CONTESTANTS; k++) {
            uint32_t c = (turn + k) % CONTESTANTS;
            uint64_t start = cpu_ns();
            measured(contestants[c].run, &j);
            times[c][turn == 0 ? 0 : turn - 1] = cpu_ns() - start;
        }
    for (uint32_t c = 0; c < CONTESTANTS; c++)
        printf("shift\t%u\t%u\t%s\t%llu\t%.4f\n", w, h, contestants[c].name,
               (unsigned long long)spread_of(times[c], TURNS).median / MOVES, median_ratio(times[c], times[0], TURNS));
    fflush(stdout);
    give_back(&j);
}

static void time_all(void)
{
    static const uint32_t sizes[][2] = {{640, 480}, {1366, 768}, {1920, 1080}, {3840, 2160}, {4096, 4096}};
    for (size_t k = 0; k < sizeof sizes / sizeof sizes[0]; k++)
        time_job(sizes[k][0], sizes[k][1]);
}

static void once(const char *name, uint32_t w, uint32_t h)
{
    uint32_t state = SEED;
    struct job j = job_of(w, h, &state);
    for (uint32_t c = 0; c < CONTESTANTS; c++)
        if (strcmp(contestants[c].name, name) == 0)
            measured(contestants[c].run, &j);
    give_back(&j);
}

int main(int argc, char **argv)
{
    return do_mode(argc, argv, &(struct modes){"shift", agree, time_all, once});
}
