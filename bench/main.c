/* The contest: who aligns the same frames in what time. One thread, contestants in turns, CPU time.
 *
 *   contest about                 what is to be said of the contestants
 *   contest agree JOBS            compares the library with the careful C program on random small frames
 *   contest time                  times every job, a line each contestant; freed memory is kept
 *   contest default W H S         times one pair; freed memory goes back as the C library does by itself
 *   contest once NAME W H S N     N frames by one contestant inside `measured`, for callgrind
 *
 * Results go to standard output, as words with tabs between.
 */
#include <limits.h>
#include <malloc.h>
#include <stdio.h>
#include <stdlib.h>
#include <string.h>

#include "contest.h"
#include "scene.h"
#include "timing.h"

enum { SEED = 2024, TOLERANCE = 4, PERCENTILE = 50, LEAST_TURNS = 15, MAX_CONTESTANTS = 7 };

/* What a timed job shows: the made scene, or random bytes, in which no word of a bitmap is empty. */
enum content { SCENE, NOISE };

static size_t raster_bytes(const struct job *j) { return (size_t)3 * j->w * j->h; }

static struct memory lend(const struct job *j)
{
    struct memory m = {0};
    for (uint32_t k = 0; k <= j->s; k++)
        m.grey_len += (size_t)2 * (j->w >> k) * (j->h >> k);
    m.words_len = (size_t)6 * ((j->w + 63) / 64) * j->h;
    m.grey = touched(m.grey_len);
    m.words = touched(8 * m.words_len);
    m.copy = touched(j->n * raster_bytes(j));
    return m;
}

static void give_back(struct memory *m)
{
    free(m->grey);
    free(m->words);
    free(m->copy);
}

static struct job job_of(uint32_t w, uint32_t h, uint32_t s, uint32_t n)
{
    struct job j = {.w = w, .h = h, .s = s, .tolerance = TOLERANCE, .n = n};
    for (uint32_t k = 0; k < MAX_FRAMES; k++)
        j.percentiles[k] = PERCENTILE;
    return j;
}

/* The frames of a job, in fresh memory. */
static uint8_t *frames(const struct job *j, enum content content, uint32_t seed)
{
    uint8_t *rasters = touched(j->n * raster_bytes(j));
    if (content == SCENE)
        for (uint32_t k = 0; k < j->n; k++)
            scene_frame(seed, k, j->w, j->h, rasters + k * raster_bytes(j));
    else
        for (size_t i = 0; i < j->n * raster_bytes(j); i++)
            rasters[i] = (uint8_t)(scene_random(&seed) >> 24);
    return rasters;
}

/* Whether two answers have the same numbers, as far as they are to agree. */
static int same(const struct job *j, const struct answer *a, const struct answer *b, enum agreement agreement)
{
    size_t counts = CANDIDATES * (j->s + 1) * (j->n - 1) * sizeof a->counts[0];
    if (agreement >= OFFSETS_AND_COUNTS
        && (memcmp(a->offsets, b->offsets, 2 * j->n * sizeof a->offsets[0]) != 0
            || memcmp(a->counts, b->counts, counts) != 0))
        return 0;
    return agreement < ALL_NUMBERS || memcmp(a->compared, b->compared, counts) == 0;
}

/* Runs the contestants that have to agree in so much or more, and compares their answers with the first one's. */
static void compare(const struct job *j, const struct memory *m, struct answer answers[], enum agreement least)
{
    for (size_t c = 0; c < contestants_len; c++) {
        if (contestants[c].agreement < least)
            continue;
        memset(&answers[c], 0, sizeof answers[c]);
        contestants[c].run(j, m, &answers[c]);
        if (!same(j, &answers[0], &answers[c], contestants[c].agreement)) {
            fprintf(stderr, "%s: %u by %u, s = %u, T = %u\n", contestants[c].name, j->w, j->h, j->s, j->tolerance);
            fail("offsets, counts or compared numbers differ from the library's");
        }
    }
}

/* ---- agree ---- */

/* A random job: any s, a side from the least that s allows up, two to five frames. */
static struct job random_job(uint32_t *state)
{
    static const uint32_t percentiles[] = {17, 50, 83};
    uint32_t s = scene_random(state) % 5, least = 4u << s;
    struct job j = job_of(least + scene_random(state) % 150, least + scene_random(state) % 100, s,
                          2 + scene_random(state) % 4);
    j.tolerance = scene_random(state) % 65 / (1 + scene_random(state) % 16);
    for (uint32_t k = 0; k < j.n; k++)
        j.percentiles[k] = percentiles[scene_random(state) % 3];
    return j;
}

static void agree(uint32_t jobs)
{
    static struct answer answers[MAX_CONTESTANTS];
    uint32_t state = SEED, pairs = 0;
    for (uint32_t i = 0; i < jobs; i++) {
        struct job j = random_job(&state);
        struct memory m = lend(&j);
        uint8_t *rasters = frames(&j, scene_random(&state) % 4 ? SCENE : NOISE, scene_random(&state));
        j.rasters = rasters;
        compare(&j, &m, answers, OFFSETS_AND_COUNTS);
        pairs += j.n - 1;
        free(rasters);
        give_back(&m);
    }
    printf("agree\t%u\t%u\n", jobs, pairs);
}

/* ---- time ---- */

/* Fewer turns for large frames; an odd number, so that the median is one of them. */
static uint32_t turns_for(const struct job *j)
{
    uint64_t turns = 250000000 / ((uint64_t)j->w * j->h * j->n);
    if (turns > MAX_TURNS)
        return MAX_TURNS;
    return turns < LEAST_TURNS ? LEAST_TURNS : (uint32_t)turns | 1;
}

/* Freed memory stays with the process. OpenCV allocates its matrices anew in each call; by itself the C library
 * gives them back to the kernel, which clears every page again: up to half of OpenCV's time, and none of its work. */
static void keep_memory(void)
{
    if (!mallopt(M_MMAP_MAX, 0) || !mallopt(M_TRIM_THRESHOLD, INT_MAX))
        fail("mallopt");
}

/* A line each contestant: the job, the name, median and least time, turns, the last frame's offset, the true one, and
 * how many times the library's time it took. */
static void print_line(const char *kind, const struct job *j, enum content content, const struct contestant *c,
                       const uint64_t *times, const uint64_t *library, uint32_t turns, const struct answer *a)
{
    struct slide first = scene_slide(0), last = scene_slide(j->n - 1);
    struct spread t = spread_of(times, turns);
    printf("%s\t%s\t%u\t%u\t%u\t%u\t%s\t", kind, content == SCENE ? "scene" : "noise", j->w, j->h, j->n, j->s, c->name);
    printf("%llu\t%llu\t%u\t", (unsigned long long)t.median, (unsigned long long)t.least, turns);
    printf("%d\t%d\t", a->offsets[2 * j->n - 2], a->offsets[2 * j->n - 1]);
    printf("%d\t%d\t%.4f\n", first.x - last.x, first.y - last.y, median_ratio(times, library, turns));
    fflush(stdout);
}

/* One turn: every contestant once, in an order of its own. */
static void take_turn(const struct job *j, const struct memory *m, struct answer answers[],
                      uint64_t times[][MAX_TURNS], uint32_t turn, uint32_t *state)
{
    size_t order[MAX_CONTESTANTS] = {0};
    for (size_t k = 0; k < contestants_len; k++) { /* shuffled while it is filled */
        size_t at = scene_random(state) % (k + 1);
        order[k] = order[at];
        order[at] = k;
    }
    for (size_t k = 0; k < contestants_len; k++) {
        size_t c = order[k];
        read_once(j->rasters, j->n * raster_bytes(j));
        uint64_t start = cpu_ns();
        contestants[c].run(j, m, &answers[c]);
        times[c][turn] = cpu_ns() - start;
    }
}

static void time_job(const char *kind, struct job j, enum content content)
{
    static struct answer answers[MAX_CONTESTANTS];
    static uint64_t times[MAX_CONTESTANTS][MAX_TURNS];
    uint32_t turns = turns_for(&j), state = SEED;
    uint8_t *rasters = frames(&j, content, SEED);
    struct memory m = lend(&j);
    j.rasters = rasters;
    fprintf(stderr, "%s: %u by %u, s = %u, %u frames, %u turns\n", kind, j.w, j.h, j.s, j.n, turns);
    compare(&j, &m, answers, NOTHING); /* every contestant once, which also warms caches */
    for (uint32_t turn = 0; turn < turns; turn++)
        take_turn(&j, &m, answers, times, turn, &state);
    for (size_t c = 0; c < contestants_len; c++)
        print_line(kind, &j, content, &contestants[c], times[c], times[0], turns, &answers[c]);
    free(rasters);
    give_back(&m);
}

static void time_all(void)
{
    static const uint32_t sizes[][2] = {{640, 480},   {1024, 768},  {1366, 768}, {1920, 1080},
                                        {2560, 1440}, {3840, 2160}, {4096, 4096}};
    keep_memory();
    for (size_t k = 0; k < sizeof sizes / sizeof sizes[0]; k++)
        time_job("time", job_of(sizes[k][0], sizes[k][1], 6, 2), SCENE);
    time_job("time", job_of(1920, 1080, 6, 2), NOISE);
    for (uint32_t s = 0; s < MAX_LEVELS; s++)
        if (s != 6) /* timed above */
            time_job("time", job_of(1920, 1080, s, 2), SCENE);
    time_job("time", job_of(640, 480, 6, 9), SCENE);
    time_job("time", job_of(1920, 1080, 6, 9), SCENE);
}

/* ---- once ---- */

static const struct contestant *contestant_named(const char *name)
{
    for (size_t c = 0; c < contestants_len; c++)
        if (strcmp(contestants[c].name, name) == 0)
            return &contestants[c];
    fail("no contestant of that name");
    return NULL;
}

/* Callgrind counts between this function's entry and its return. */
__attribute__((noinline)) void measured(const struct contestant *c, const struct job *j, const struct memory *m,
                                        struct answer *a)
{
    c->run(j, m, a);
    __asm__ volatile("" ::: "memory"); /* so that the call is no jump */
}

static void once(const char *name, struct job j)
{
    static struct answer a;
    struct memory m = lend(&j);
    uint8_t *rasters = frames(&j, SCENE, SEED);
    j.rasters = rasters;
    measured(contestant_named(name), &j, &m, &a);
    free(rasters);
    give_back(&m);
}

static void about(void)
{
#ifdef WITH_OPENCV
    printf("fact\tOpenCV\t%s\n", opencv_about());
#endif
}

static uint32_t number(const char *word) { return (uint32_t)strtoul(word, NULL, 10); }

int main(int argc, char **argv)
{
    const char *mode = argc > 1 ? argv[1] : "";
    if (argc == 2 && strcmp(mode, "about") == 0)
        about();
    else if (argc == 3 && strcmp(mode, "agree") == 0)
        agree(number(argv[2]));
    else if (argc == 2 && strcmp(mode, "time") == 0)
        time_all();
    else if (argc == 5 && strcmp(mode, "default") == 0)
        time_job("default", job_of(number(argv[2]), number(argv[3]), number(argv[4]), 2), SCENE);
    else if (argc == 7 && strcmp(mode, "once") == 0)
        once(argv[2], job_of(number(argv[3]), number(argv[4]), number(argv[5]), number(argv[6])));
    else
        fail("usage: contest about | agree JOBS | time | default W H S | once NAME W H S N");
    return 0;
}
