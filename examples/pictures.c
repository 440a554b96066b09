/* Shows an alignment by mtb.h: pictures of two P6 files, as P6 files in a folder.
 *
 *     pictures [-s HALVINGS] [-t TOLERANCE] [-p PERCENTILE] FIRST SECOND FOLDER
 *
 *     first-bits, second-bits                the frames' bitmaps: white above the threshold, black not, red where excluded
 *     difference-before, difference-after    white where the two bitmaps differ, the second one as it is and moved
 *     over-before, over-after                the second frame over the first, half of each, as it is and moved */

#include <inttypes.h>
#include <stdio.h>
#include <stdlib.h>
#include <string.h>

#include "desktop.h"
#include "mtb.h"

enum { MOST_COUNTS = 9 * 9, CHANNELS = 3, BLACK = 0, WHITE = 255, RED = 160 };

struct size {
    uint32_t w, h;
    size_t pixels, bytes, words;    /* of a grey frame, a raster, a bitmap */
};

struct frame {
    struct file file;
    const uint8_t *raster;          /* a part of the file's bytes */
    uint64_t *thresholds, *exclusions;
};

static struct frame read_frame(const char *name, struct size *size)
{
    struct frame frame = {.file = read_file(name)};
    size_t start;
    insist(name, mtb_p6_size(frame.file.bytes, frame.file.length, &size->w, &size->h));
    insist(name, mtb_p6_raster(frame.file.bytes, frame.file.length, &start, &size->bytes));
    frame.raster = frame.file.bytes + start;
    size->pixels = size->bytes / CHANNELS;
    size->words = (size_t)(size->w + 63) / 64 * size->h;
    return frame;
}

static void add_bitmaps(struct frame *frame, const struct size *size, const uint32_t *settings)
{
    uint8_t *grey = lend(size->pixels, sizeof *grey), threshold;
    frame->thresholds = lend(size->words, sizeof *frame->thresholds);
    frame->exclusions = lend(size->words, sizeof *frame->exclusions);
    insist("grey", mtb_grey(size->w, size->h, frame->raster, size->bytes, grey, size->pixels));
    insist("threshold", mtb_threshold(size->w, size->h, settings[PERCENTILE], grey, size->pixels, &threshold));
    insist("bitmaps", mtb_bitmaps(size->w, size->h, threshold, settings[TOLERANCE], grey, size->pixels,
                                  frame->thresholds, size->words, frame->exclusions, size->words));
    free(grey);
}

static void free_frame(struct frame *frame)
{
    free(frame->file.bytes);
    free(frame->thresholds);
    free(frame->exclusions);
}

struct move {
    int32_t dx, dy;
};

/* The move that lays the second frame onto the first. */
static struct move align(const struct frame *first, const struct frame *second, const struct size *size, const uint32_t *settings)
{
    uint32_t s = settings[HALVINGS];
    size_t grey_len = mtb_grey_needed(size->w, size->h, s), words_len = mtb_words_needed(size->w, size->h, s);
    uint8_t *grey = lend(grey_len, sizeof *grey);
    uint64_t *words = lend(words_len, sizeof *words);
    uint32_t counts[MOST_COUNTS], compared[MOST_COUNTS];
    struct move move;
    insist("the pair", mtb_pair(size->w, size->h, s, settings[TOLERANCE], settings[PERCENTILE], first->raster, size->bytes,
                                second->raster, size->bytes, &move.dx, &move.dy, counts, MOST_COUNTS,
                                compared, MOST_COUNTS, grey, grey_len, words, words_len));
    free(grey);
    free(words);
    return move;
}

static uint64_t *shifted(const uint64_t *bitmap, const struct size *size, struct move move)
{
    uint64_t *out = lend(size->words, sizeof *out);
    insist("shift", mtb_shift(size->w, size->h, move.dx, move.dy, bitmap, size->words, out, size->words));
    return out;
}

/* 1 where the threshold bits differ and neither frame excludes the pixel. */
static uint64_t *difference(const struct frame *first, const struct frame *second, const struct size *size, struct move move)
{
    uint64_t *bits = shifted(second->thresholds, size, move), *kept = shifted(second->exclusions, size, move);
    for (size_t i = 0; i < size->words; i++) {
        bits[i] = (bits[i] ^ first->thresholds[i]) & first->exclusions[i] & kept[i];
    }
    free(kept);
    return bits;
}

static void write_picture(const char *folder, const char *name, const struct size *size, const uint8_t *raster)
{
    size_t path_len = strlen(folder) + strlen(name) + sizeof "/.ppm";
    char *path = lend(path_len, 1);
    snprintf(path, path_len, "%s/%s.ppm", folder, name);
    write_p6(path, size->w, size->h, raster);
    free(path);
}

/* A bitmap in black and white, red where a second one, if there is one, has a 0. */
static void paint_bits(const char *folder, const char *name, const struct size *size, const uint64_t *bits, const uint64_t *kept)
{
    uint8_t *raster = lend(size->bytes, sizeof *raster), *pixel = raster;
    size_t row = size->words / size->h;
    for (uint32_t y = 0; y < size->h; y++) {
        for (uint32_t x = 0; x < size->w; x++, pixel += CHANNELS) {
            size_t word = y * row + x / 64;
            memset(pixel, bits[word] >> x % 64 & 1 ? WHITE : BLACK, CHANNELS);
            if (kept != NULL && !(kept[word] >> x % 64 & 1)) {
                pixel[0] = RED;
                pixel[1] = pixel[2] = 0;
            }
        }
    }
    write_picture(folder, name, size, raster);
    free(raster);
}

static void paint_difference(const char *folder, const char *name, const struct size *size,
                             const struct frame *first, const struct frame *second, struct move move)
{
    uint64_t *bits = difference(first, second, size, move);
    uint32_t count, compared, painted;
    insist("difference", mtb_difference(size->w, size->h, move.dx, move.dy, first->thresholds, size->words,
                                        first->exclusions, size->words, second->thresholds, size->words,
                                        second->exclusions, size->words, &count, &compared));
    insist("total", mtb_total(size->w, size->h, bits, size->words, &painted));
    if (painted != count) {
        fail(name, "the picture has another count");
    }
    printf("%s: %" PRIu32 " of %" PRIu32 " compared pixels\n", name, count, compared);
    paint_bits(folder, name, size, bits, NULL);
    free(bits);
}

static void paint_over(const char *folder, const char *name, const struct size *size,
                       const struct frame *first, const struct frame *second, struct move move)
{
    uint8_t *raster = lend(size->bytes, sizeof *raster);
    insist("moved frame", mtb_moved(size->w, size->h, move.dx, move.dy, second->raster, size->bytes, raster, size->bytes));
    for (size_t i = 0; i < size->bytes; i++) {
        raster[i] = (uint8_t)((raster[i] + first->raster[i]) / 2);
    }
    write_picture(folder, name, size, raster);
    free(raster);
}

int main(int argc, char **argv)
{
    uint32_t settings[] = {[HALVINGS] = NOT_GIVEN, [TOLERANCE] = 0, [PERCENTILE] = 50};
    int files = read_options(argc, argv, "stp", settings);
    if (files == 0 || argc - files != 3) {
        fputs("usage: pictures [-s HALVINGS] [-t TOLERANCE] [-p PERCENTILE] FIRST SECOND FOLDER\n", stderr);
        return 2;
    }
    struct size size, other;
    struct frame first = read_frame(argv[files], &size), second = read_frame(argv[files + 1], &other);
    if (size.w != other.w || size.h != other.h) {
        fail(argv[files + 1], "not of the first frame's size");
    }
    if (settings[HALVINGS] == NOT_GIVEN) {
        settings[HALVINGS] = fitting_halvings(size.w, size.h);
    }
    struct move none = {0, 0}, move = align(&first, &second, &size, settings);
    printf("offset %" PRId32 " %" PRId32 "\n", move.dx, move.dy);

    const char *folder = argv[files + 2];
    add_bitmaps(&first, &size, settings);
    add_bitmaps(&second, &size, settings);
    paint_bits(folder, "first-bits", &size, first.thresholds, first.exclusions);
    paint_bits(folder, "second-bits", &size, second.thresholds, second.exclusions);
    paint_difference(folder, "difference-before", &size, &first, &second, none);
    paint_difference(folder, "difference-after", &size, &first, &second, move);
    paint_over(folder, "over-before", &size, &first, &second, none);
    paint_over(folder, "over-after", &size, &first, &second, move);
    free_frame(&first);
    free_frame(&second);
    return finish();
}
