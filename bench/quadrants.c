/* The four quadrants of a pair, beside the pair itself.
 *
 *   quadrants agree JOBS          compares the contestants on random small frames
 *   quadrants time                times every size of the page, a line each contestant
 *   quadrants once NAME W H       one call by one contestant inside `measured`, for callgrind
 *
 * Results go to standard output, as words with tabs between.
 */
#include <stdio.h>
#include <stdlib.h>
#include <string.h>

#include "careful.h"
#include "mtb.h"
#include "scene.h"
#include "timing.h"

/* Of 640 by 480 a quadrant is 320 by 240, on which s = 5 is the most. */
enum { SEED = 2024, TOLERANCE = 4, PERCENTILE = 50, HALVINGS = 5, QUADRANTS = 4, MOST_COUNTS = 81, TURNS = 31 };

/* Two frames, the settings, and buffers that are lent to every contestant. */
struct job {
    uint32_t w, h, s, tolerance, percentile;
    size_t len; /* of a raster */
    uint8_t *first, *second, *grey, *cut;
    uint64_t *words;
    size_t grey_len, words_len;
};

struct answer {
    int32_t offsets[2 * QUADRANTS];
    bool turned;
};

typedef void contender(const struct job *, struct answer *);

static void insist(uint32_t refused)
{
    if (refused != 0)
        fail("the library refused a pair or its quadrants");
}

static void library(const struct job *j, struct answer *a)
{
    insist(mtb_quadrants(j->w, j->h, j->s, j->tolerance, j->percentile, j->first, j->len, j->second, j->len, a->offsets,
                         2 * QUADRANTS, &a->turned, j->grey, j->grey_len, j->words, j->words_len));
}

/* The library's pair call: of the whole frames, or of quadrants that were cut out. */
static void call_pair(const struct job *j, uint32_t w, uint32_t h, const uint8_t *first, const uint8_t *second, int32_t *offset)
{
    static uint32_t counts[MOST_COUNTS], compared[MOST_COUNTS];
    size_t len = (size_t)3 * w * h;
    insist(mtb_pair(w, h, j->s, j->tolerance, j->percentile, first, len, second, len, &offset[0], &offset[1], counts,
                    MOST_COUNTS, compared, MOST_COUNTS, j->grey, j->grey_len, j->words, j->words_len));
}

static void pair(const struct job *j, struct answer *a) { call_pair(j, j->w, j->h, j->first, j->second, a->offsets); }

static void cut_out(const struct job *j, const uint8_t *raster, int k, uint8_t *out)
{
    size_t w = j->w / 2, h = j->h / 2, left = k % 2 ? j->w - w : 0, top = k / 2 ? j->h - h : 0;
    for (size_t y = 0; y < h; y++)
        memcpy(out + 3 * y * w, raster + 3 * ((top + y) * j->w + left), 3 * w);
}

/* Paper 4's sentence as a program: a quadrant's offset is that of its pixels cropped and aligned as a pair. */
static void four_pairs(const struct job *j, struct answer *a)
{
    uint8_t *second = j->cut + (size_t)3 * (j->w / 2) * (j->h / 2);
    int32_t *o = a->offsets;
    for (int k = 0; k < QUADRANTS; k++) {
        cut_out(j, j->first, k, j->cut);
        cut_out(j, j->second, k, second);
        call_pair(j, j->w / 2, j->h / 2, j->cut, second, o + 2 * k);
    }
    a->turned = false;
    for (int k = 0; k < QUADRANTS * QUADRANTS; k++)
        for (int axis = 0; axis < 2; axis++)
            a->turned |= abs(o[2 * (k / QUADRANTS) + axis] - o[2 * (k % QUADRANTS) + axis]) > 1;
}

static void careful(const struct job *j, struct answer *a)
{
    a->turned = careful_quadrants(j->w, j->h, j->s, j->tolerance, j->percentile, j->first, j->second, a->offsets, j->grey,
                                  j->words);
}

static const struct contestant {
    const char *name;
    contender *run;
    int agrees; /* its answer has to be the library's */
} contestants[] = {{"library", library, 1}, {"pair", pair, 0}, {"four pairs", four_pairs, 1}, {"careful C", careful, 1}};

enum { CONTESTANTS = sizeof contestants / sizeof contestants[0] };

/* The memory is that of the whole pair, which is timed beside. */
static struct job job_of(uint32_t w, uint32_t h, uint32_t s, uint32_t seed)
{
    struct job j = {.w = w, .h = h, .s = s, .tolerance = TOLERANCE, .percentile = PERCENTILE, .len = (size_t)3 * w * h};
    j.grey_len = mtb_grey_needed(w, h, s);
    j.words_len = mtb_words_needed(w, h, s);
    j.first = touched(j.len);
    j.second = touched(j.len);
    j.cut = touched(j.len);
    j.grey = touched(j.grey_len);
    j.words = touched(8 * j.words_len);
    scene_frame(seed, 0, w, h, j.first);
    scene_frame(seed, 1, w, h, j.second);
    return j;
}

static void give_back(struct job *j)
{
    free(j->first);
    free(j->second);
    free(j->cut);
    free(j->grey);
    free(j->words);
}

static int same(const struct answer *a, const struct answer *b)
{
    return memcmp(a->offsets, b->offsets, sizeof a->offsets) == 0 && a->turned == b->turned;
}

static void compare(const struct answer answers[])
{
    for (size_t c = 1; c < CONTESTANTS; c++)
        if (contestants[c].agrees && !same(&answers[0], &answers[c]))
            fail("offsets of quadrants, or the warning, differ from the library's");
}

/* ---- agree ---- */

/* Random frames: any s, a side from twice the least that s allows up, in one of four cases bytes without a scene. */
static struct job random_job(uint32_t *state)
{
    static const uint32_t percentiles[] = {17, 50, 83};
    uint32_t s = scene_random(state) % 5, least = 8u << s;
    struct job j = job_of(least + scene_random(state) % 150, least + scene_random(state) % 100, s, scene_random(state));
    j.tolerance = scene_random(state) % 65 / (1 + scene_random(state) % 16);
    j.percentile = percentiles[scene_random(state) % 3];
    if (scene_random(state) % 4 == 0)
        for (size_t i = 0; i < j.len; i++)
            j.second[i] = (uint8_t)(scene_random(state) >> 24);
    return j;
}

static void agree(uint32_t jobs)
{
    static struct answer answers[CONTESTANTS];
    uint32_t state = SEED, turned = 0;
    for (uint32_t i = 0; i < jobs; i++) {
        struct job j = random_job(&state);
        for (size_t c = 0; c < CONTESTANTS; c++)
            contestants[c].run(&j, &answers[c]);
        compare(answers);
        turned += answers[0].turned;
        give_back(&j);
    }
    printf("agree quadrants\t%u\t%u\n", jobs, turned);
}

/* ---- time ---- */

__attribute__((noinline)) void measured(contender *run, const struct job *j, struct answer *a)
{
    run(j, a);
    __asm__ volatile("" ::: "memory"); /* so that the call is no jump */
}

/* Contestants in turns; the one that begins changes with each turn. The first turn is not counted. */
static void time_job(uint32_t w, uint32_t h)
{
    static struct answer answers[CONTESTANTS];
    static uint64_t times[CONTESTANTS][MAX_TURNS];
    struct job j = job_of(w, h, HALVINGS, SEED);
    fprintf(stderr, "quadrants: %u by %u, s = %u, %u turns\n", w, h, j.s, TURNS);
    for (uint32_t turn = 0; turn <= TURNS; turn++)
        for (uint32_t k = 0; k < CONTESTANTS; k++) {
            uint32_t c = (turn + k) % CONTESTANTS;
            uint64_t start = cpu_ns();
            measured(contestants[c].run, &j, &answers[c]);
            times[c][turn == 0 ? 0 : turn - 1] = cpu_ns() - start;
        }
    compare(answers);
    for (uint32_t c = 0; c < CONTESTANTS; c++)
        printf("quadrants\t%u\t%u\t%s\t%llu\t%.4f\n", w, h, contestants[c].name,
               (unsigned long long)spread_of(times[c], TURNS).median, median_ratio(times[c], times[0], TURNS));
    fflush(stdout);
    give_back(&j);
}

static void time_all(void)
{
    static const uint32_t sizes[][2] = {{640, 480},   {1024, 768},  {1366, 768}, {1920, 1080},
                                        {2560, 1440}, {3840, 2160}, {4096, 4096}};
    for (size_t k = 0; k < sizeof sizes / sizeof sizes[0]; k++)
        time_job(sizes[k][0], sizes[k][1]);
}

static void once(const char *name, uint32_t w, uint32_t h)
{
    static struct answer answer;
    struct job j = job_of(w, h, HALVINGS, SEED);
    for (uint32_t c = 0; c < CONTESTANTS; c++)
        if (strcmp(contestants[c].name, name) == 0)
            measured(contestants[c].run, &j, &answer);
    give_back(&j);
}

int main(int argc, char **argv)
{
    return do_mode(argc, argv, &(struct modes){"quadrants", agree, time_all, once});
}
