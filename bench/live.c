/* A frame added to a live bracket, beside the pair call on the same two frames.
 *
 *   live agree JOBS          compares what a live bracket tells with mtb_series on random small frames
 *   live time                times every size of the page, a line each contestant
 *   live once NAME W H       one call by one contestant inside `measured`, for callgrind
 *
 * Results go to standard output, as words with tabs between.
 */
#include <stdio.h>
#include <stdlib.h>
#include <string.h>

#include "mtb.h"
#include "scene.h"
#include "timing.h"

enum { SEED = 2024, TOLERANCE = 4, PERCENTILE = 50, HALVINGS = 6, TURNS = 31 };
enum { HELD = 36, MOST_FRAMES = 5, MOST_COUNTS = 81 * (MOST_FRAMES - 1) };

/* Frames one after another, the settings, and buffers that are lent to every contestant. `held` and `newest` are a live bracket's
 * memory; `first_held` and `first_newest` are what they hold after the first frame. */
struct job {
    uint32_t w, h, s, tolerance, percentile, n;
    size_t len, area; /* bytes of a raster and of its grey */
    uint8_t *rasters, *newest, *first_newest, *grey;
    uint64_t *words;
    size_t grey_len, words_len;
    int32_t held[HELD], first_held[HELD];
};

typedef void contender(struct job *, int32_t *offset);

static void insist(uint32_t refused)
{
    if (refused != 0)
        fail("the library refused a frame, a pair or a series");
}

static void start(struct job *j)
{
    insist(mtb_live_start(j->w, j->h, j->s, j->tolerance, j->percentile, j->held, HELD, j->newest, j->area));
}

static void add(struct job *j, uint32_t k)
{
    insist(mtb_live_add(j->held, HELD, j->newest, j->area, j->rasters + k * j->len, j->len, j->grey, j->grey_len, j->words,
                        j->words_len));
}

static void tell(struct job *j, int32_t *offsets)
{
    uint32_t n;
    insist(mtb_live_offsets(j->held, HELD, j->newest, j->area, offsets, 2 * MOST_FRAMES, &n));
    if (n != j->n)
        fail("a live bracket holds another number of frames");
}

/* The second frame; the first one is held. */
static void library(struct job *j, int32_t *offset)
{
    (void)offset; /* told after the clock has stopped */
    add(j, 1);
}

static void pair(struct job *j, int32_t *offset)
{
    static uint32_t counts[MOST_COUNTS], compared[MOST_COUNTS];
    insist(mtb_pair(j->w, j->h, j->s, j->tolerance, j->percentile, j->rasters, j->len, j->rasters + j->len, j->len, &offset[0],
                    &offset[1], counts, MOST_COUNTS, compared, MOST_COUNTS, j->grey, j->grey_len, j->words, j->words_len));
}

static const struct contestant {
    const char *name;
    contender *run;
} contestants[] = {{"library", library}, {"pair", pair}};

enum { CONTESTANTS = sizeof contestants / sizeof contestants[0] };

static struct job job_of(uint32_t w, uint32_t h, uint32_t s, uint32_t n, uint32_t seed)
{
    struct job j = {.w = w, .h = h, .s = s, .tolerance = TOLERANCE, .percentile = PERCENTILE, .n = n};
    j.area = (size_t)w * h;
    j.len = 3 * j.area;
    j.grey_len = mtb_grey_needed(w, h, s);
    j.words_len = mtb_words_needed(w, h, s);
    j.rasters = touched(n * j.len);
    j.newest = touched(j.area);
    j.first_newest = touched(j.area);
    j.grey = touched(j.grey_len);
    j.words = touched(8 * j.words_len);
    for (uint32_t k = 0; k < n; k++)
        scene_frame(seed, k, w, h, j.rasters + k * j.len);
    return j;
}

static void give_back(struct job *j)
{
    free(j->rasters);
    free(j->newest);
    free(j->first_newest);
    free(j->grey);
    free(j->words);
}

/* ---- agree ---- */

/* Random frames: any s, a side from the least that s allows up, in one of four cases bytes without a scene. */
static struct job random_job(uint32_t *state)
{
    static const uint32_t percentiles[] = {17, 50, 83};
    uint32_t s = scene_random(state) % 5, least = 4u << s;
    struct job j = job_of(least + scene_random(state) % 150, least + scene_random(state) % 100, s,
                          1 + scene_random(state) % MOST_FRAMES, scene_random(state));
    j.tolerance = scene_random(state) % 65 / (1 + scene_random(state) % 16);
    j.percentile = percentiles[scene_random(state) % 3];
    if (scene_random(state) % 4 == 0)
        for (size_t i = 0; i < j.len; i++)
            j.rasters[i] = (uint8_t)(scene_random(state) >> 24);
    return j;
}

static void call_series(const struct job *j, int32_t *offsets)
{
    static uint32_t counts[MOST_COUNTS], compared[MOST_COUNTS];
    const uint32_t p = j->percentile, percentiles[MOST_FRAMES] = {p, p, p, p, p};
    insist(mtb_series(j->w, j->h, j->s, j->tolerance, j->n, 0, percentiles, j->n - 1, j->rasters, j->n * j->len, offsets,
                      2 * MOST_FRAMES, counts, MOST_COUNTS, compared, MOST_COUNTS, j->grey, j->grey_len, j->words, j->words_len));
}

static void agree(uint32_t jobs)
{
    uint32_t state = SEED, frames = 0;
    for (uint32_t i = 0; i < jobs; i++) {
        int32_t told[2 * MOST_FRAMES] = {0}, series[2 * MOST_FRAMES] = {0};
        struct job j = random_job(&state);
        start(&j);
        for (uint32_t k = 0; k < j.n; k++)
            add(&j, k);
        tell(&j, told);
        call_series(&j, series);
        if (memcmp(told, series, sizeof told) != 0)
            fail("a live bracket tells other offsets than the series");
        frames += j.n;
        give_back(&j);
    }
    printf("agree live\t%u\t%u\n", jobs, frames);
}

/* ---- time ---- */

__attribute__((noinline)) void measured(contender *run, struct job *j, int32_t *offset)
{
    run(j, offset);
    __asm__ volatile("" ::: "memory"); /* so that the call is no jump */
}

/* The first frame is added and what is then held is kept aside. */
static void hold_first(struct job *j)
{
    start(j);
    add(j, 0);
    memcpy(j->first_held, j->held, sizeof j->held);
    memcpy(j->first_newest, j->newest, j->area);
}

/* Before every call of every contestant. */
static void restore(struct job *j)
{
    memcpy(j->held, j->first_held, sizeof j->held);
    memcpy(j->newest, j->first_newest, j->area);
    read_once(j->rasters, j->n * j->len);
}

static void compare(struct job *j, const int32_t *offset)
{
    int32_t told[2 * MOST_FRAMES];
    restore(j);
    add(j, 1);
    tell(j, told);
    if (told[2] != offset[0] || told[3] != offset[1])
        fail("a live bracket tells another offset than the pair");
}

/* Contestants in turns; the one that begins changes with each turn. The first turn is not counted. */
static void time_job(uint32_t w, uint32_t h)
{
    static uint64_t times[CONTESTANTS][MAX_TURNS];
    int32_t offset[2] = {0, 0};
    struct job j = job_of(w, h, HALVINGS, 2, SEED);
    fprintf(stderr, "live: %u by %u, s = %u, %u turns\n", w, h, j.s, TURNS);
    hold_first(&j);
    for (uint32_t turn = 0; turn <= TURNS; turn++)
        for (uint32_t k = 0; k < CONTESTANTS; k++) {
            uint32_t c = (turn + k) % CONTESTANTS;
            restore(&j);
            uint64_t begin = cpu_ns();
            measured(contestants[c].run, &j, offset);
            times[c][turn == 0 ? 0 : turn - 1] = cpu_ns() - begin;
        }
    compare(&j, offset);
    for (uint32_t c = 0; c < CONTESTANTS; c++)
        printf("live\t%u\t%u\t%s\t%llu\t%.4f\n", w, h, contestants[c].name,
               (unsigned long long)spread_of(times[c], TURNS).median, median_ratio(times[c], times[0], TURNS));
    fflush(stdout);
    give_back(&j);
}

static void time_all(void)
{
    static const uint32_t sizes[][2] = {{640, 480},   {1024, 768},  {1366, 768}, {1920, 1080},
                                        {2560, 1440}, {3840, 2160}, {4096, 4096}};
    for (size_t k = 0; k < sizeof sizes / sizeof sizes[0]; k++)
        time_job(sizes[k][0], sizes[k][1]);
}

static void once(const char *name, uint32_t w, uint32_t h)
{
    int32_t offset[2];
    struct job j = job_of(w, h, HALVINGS, 2, SEED);
    hold_first(&j);
    for (uint32_t c = 0; c < CONTESTANTS; c++)
        if (strcmp(contestants[c].name, name) == 0)
            measured(contestants[c].run, &j, offset);
    give_back(&j);
}

int main(int argc, char **argv)
{
    return do_mode(argc, argv, &(struct modes){"live", agree, time_all, once});
}
