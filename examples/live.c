/* A live bracket by mtb.h: frames come and go, and after each step the offsets of the frames held are told, against the oldest.
 *
 *     live [-s HALVINGS] [-t TOLERANCE] [-p PERCENTILE] STEP...
 *
 * A step is a P6 file, which is added as the newest frame, or the word "drop", by which the oldest goes, or "start", by which all
 * go. What the library refuses is told with its number; the bracket is then as it was before, and the session goes on.
 *
 * Firmware does the same with less: its memory is static, for its largest frame and s. At 640 by 480 and s = 5 that is
 *     static int32_t held[36];                 kept from call to call
 *     static uint8_t newest[307200];           kept from call to call
 *     static uint8_t grey[819000];             work memory, free between the calls
 *     static uint64_t words[28800];            likewise
 * and one raster, which the camera may overwrite as soon as mtb_live_add is back: of a frame nothing is kept but its grey, and
 * that only while it is the newest. */

#include <inttypes.h>
#include <stdio.h>
#include <stdlib.h>
#include <string.h>

#include "desktop.h"
#include "mtb.h"

enum { HELD_NUMBERS = 36, MOST_FRAMES = 16 };

/* What is kept between the calls stands in `held` and `newest` alone, which nobody else may write; the rest is known anyway. */
struct live {
    uint32_t w, h, s, tolerance, percentile;
    int32_t held[HELD_NUMBERS];
    uint8_t *newest, *grey;
    uint64_t *words;
    size_t pixels, grey_len, words_len;
};

static uint32_t start(struct live *live)
{
    return mtb_live_start(live->w, live->h, live->s, live->tolerance, live->percentile, live->held, HELD_NUMBERS,
                          live->newest, live->pixels);
}

/* One pair is aligned, the newest frame and this one; for the first frame none is. */
static uint32_t add(struct live *live, const char *name)
{
    struct file file = read_file(name);
    uint32_t w, h;
    size_t begin, length;
    insist(name, mtb_p6_size(file.bytes, file.length, &w, &h));
    insist(name, mtb_p6_raster(file.bytes, file.length, &begin, &length));
    if (w != live->w || h != live->h) {
        fail(name, "not of the first frame's size");
    }
    uint32_t refusal = mtb_live_add(live->held, HELD_NUMBERS, live->newest, live->pixels, file.bytes + begin, length,
                                    live->grey, live->grey_len, live->words, live->words_len);
    free(file.bytes);
    return refusal;
}

/* Nothing is aligned again: the others keep their offsets between each other, and the next one is the oldest now. */
static uint32_t drop(struct live *live)
{
    return mtb_live_drop(live->held, HELD_NUMBERS, live->newest, live->pixels);
}

/* dx and dy of each frame, oldest first. Only sums are worked out here, so it may be asked as often as the display likes. */
static void print_offsets(const struct live *live)
{
    int32_t offsets[2 * MOST_FRAMES];
    uint32_t n;
    insist("the offsets", mtb_live_offsets(live->held, HELD_NUMBERS, live->newest, live->pixels, offsets, 2 * MOST_FRAMES, &n));
    for (uint32_t k = 0; k < n; k++) {
        printf(" (%" PRId32 ", %" PRId32 ")", offsets[2 * k], offsets[2 * k + 1]);
    }
    puts(n == 0 ? " no frames" : "");
}

static void take_step(struct live *live, const char *step)
{
    uint32_t refusal = strcmp(step, "start") == 0 ? start(live) : strcmp(step, "drop") == 0 ? drop(live) : add(live, step);
    printf("%s:", step);
    if (refusal != MTB_ACCEPTED) {
        printf(" refused (%" PRIu32 "): %s\n    still", refusal, meaning_of(refusal));
    }
    print_offsets(live);
}

/* The first file's size is the bracket's. */
static void read_size(struct live *live, char **steps)
{
    while (*steps != NULL && (strcmp(*steps, "start") == 0 || strcmp(*steps, "drop") == 0)) {
        steps++;
    }
    if (*steps == NULL) {
        fail("the steps", "there is no file among them");
    }
    struct file file = read_file(*steps);
    insist(*steps, mtb_p6_size(file.bytes, file.length, &live->w, &live->h));
    free(file.bytes);
}

int main(int argc, char **argv)
{
    uint32_t settings[] = {[HALVINGS] = NOT_GIVEN, [TOLERANCE] = 0, [PERCENTILE] = 50};
    int steps = read_options(argc, argv, "stp", settings);
    if (steps == 0 || steps == argc) {
        fputs("usage: live [-s HALVINGS] [-t TOLERANCE] [-p PERCENTILE] STEP...    a STEP is a FILE, drop or start\n", stderr);
        return 2;
    }
    struct live live = {.tolerance = settings[TOLERANCE], .percentile = settings[PERCENTILE]};
    read_size(&live, argv + steps);
    live.s = settings[HALVINGS] == NOT_GIVEN ? fitting_halvings(live.w, live.h) : settings[HALVINGS];
    live.pixels = (size_t)live.w * live.h;
    live.grey_len = mtb_grey_needed(live.w, live.h, live.s);
    live.words_len = mtb_words_needed(live.w, live.h, live.s);
    live.newest = lend(live.pixels, sizeof *live.newest);
    live.grey = lend(live.grey_len, sizeof *live.grey);
    live.words = lend(live.words_len, sizeof *live.words);
    insist("the bracket", start(&live));
    printf("%" PRIu32 " by %" PRIu32 " pixels, s = %" PRIu32 ", T = %" PRIu32 ", P = %" PRIu32 "\n", live.w, live.h, live.s,
           live.tolerance, live.percentile);
    for (int k = steps; k < argc; k++) {
        take_step(&live, argv[k]);
    }
    free(live.words);
    free(live.grey);
    free(live.newest);
    return finish();
}
