/* Warns of field rotation by mtb.h: aligns the four quadrants of two P6 files separately, says whether the picture has turned
 * between them, and paints what was found.
 *
 *     rotation [-s HALVINGS] [-t TOLERANCE] [-p PERCENTILE] [-a TENTHS] FIRST SECOND PICTURE
 *
 * PICTURE is written, a P6 file: the first frame, dimmed, parted into its quadrants, with two arrows in each. The yellow one is the
 * quadrant's offset, the red one what of it is not common to the four: of frames that only slid nothing is, of turned ones the red
 * arrows go round. Both are drawn as many times as long as is printed.
 * With -a the second frame is turned before it is aligned, clockwise about its centre and by so many tenths of a degree: to see
 * the warning come. */

#include <inttypes.h>
#include <stdbool.h>
#include <stdio.h>
#include <stdlib.h>
#include <string.h>

#include "desktop.h"
#include "mtb.h"

enum { QUADRANTS = 4, CHANNELS = 3 };

struct frame {
    uint32_t w, h;
    size_t bytes;
    uint8_t *raster;
};

static struct frame read_frame(const char *name)
{
    struct file file = read_file(name);
    struct frame frame;
    size_t start;
    insist(name, mtb_p6_size(file.bytes, file.length, &frame.w, &frame.h));
    insist(name, mtb_p6_raster(file.bytes, file.length, &start, &frame.bytes));
    frame.raster = lend(frame.bytes, 1);
    memcpy(frame.raster, file.bytes + start, frame.bytes);
    free(file.bytes);
    return frame;
}

/* ---- Turning a frame, by whole numbers, so that it comes out the same on every machine ---- */

enum {
    ONE = 1 << 30,              /* cosine and sine are told in parts of this */
    TENTH_COSINE = 1073740189,  /* of a tenth of a degree */
    TENTH_SINE = 1874032,
    TENTHS_ROUND = 3600,
    FINE = 256,                 /* places are told in parts of a pixel */
};

struct turn {
    int64_t cosine, sine;
};

static struct turn turn_by(uint32_t tenths)
{
    struct turn turn = {ONE, 0};
    for (uint32_t k = 0; k < tenths % TENTHS_ROUND; k++) {
        int64_t cosine = turn.cosine * TENTH_COSINE - turn.sine * TENTH_SINE;
        turn.sine = (turn.sine * TENTH_COSINE + turn.cosine * TENTH_SINE) / ONE;
        turn.cosine = cosine / ONE;
    }
    return turn;
}

/* A place on a side, in parts of a pixel, the nearest one where it lies beyond; told is its distance from the side's middle, twice
 * over and in parts of ONE. */
static uint32_t place_on(uint32_t side, int64_t from_middle)
{
    int64_t place = ((int64_t)(side - 1) * ONE + from_middle) / (2 * (ONE / FINE)), most = (int64_t)(side - 1) * FINE;
    return (uint32_t)(place < 0 ? 0 : place > most ? most : place);
}

/* The pixel at a place: the four around it, blended. */
static void blend(const struct frame *frame, uint32_t x, uint32_t y, uint8_t *pixel)
{
    uint32_t u = x % FINE, v = y % FINE;
    size_t row = (size_t)CHANNELS * frame->w, right = u == 0 ? 0 : CHANNELS, below = v == 0 ? 0 : row;
    const uint8_t *from = frame->raster + y / FINE * row + (size_t)CHANNELS * (x / FINE);
    for (int k = 0; k < CHANNELS; k++, from++) {
        uint32_t upper = (FINE - u) * from[0] + u * from[right], lower = (FINE - u) * from[below] + u * from[below + right];
        pixel[k] = (uint8_t)(((FINE - v) * upper + v * lower + FINE * FINE / 2) / (FINE * FINE));
    }
}

/* Where the turned frame shows what lay outside, its nearest edge stands. */
static void turn_frame(struct frame *frame, uint32_t tenths)
{
    struct turn turn = turn_by(tenths);
    uint8_t *turned = lend(frame->bytes, 1), *pixel = turned;
    for (uint32_t y = 0; y < frame->h; y++) {
        for (uint32_t x = 0; x < frame->w; x++, pixel += CHANNELS) {
            int64_t u = 2 * (int64_t)x - (frame->w - 1), v = 2 * (int64_t)y - (frame->h - 1);
            blend(frame, place_on(frame->w, turn.cosine * u + turn.sine * v),
                  place_on(frame->h, turn.cosine * v - turn.sine * u), pixel);
        }
    }
    free(frame->raster);
    frame->raster = turned;
}

/* ---- The warning ---- */

struct warning {
    int32_t offsets[2 * QUADRANTS];    /* dx and dy: upper left, upper right, lower left, lower right */
    bool turned;
};

/* A quadrant is half as wide and high as the frame, rounded down, and the work memory is that of a pair of this size. */
static struct warning ask(const struct frame *first, const struct frame *second, const uint32_t *settings)
{
    uint32_t w = first->w, h = first->h, s = settings[HALVINGS];
    size_t grey_len = mtb_grey_needed(w / 2, h / 2, s), words_len = mtb_words_needed(w / 2, h / 2, s);
    uint8_t *grey = lend(grey_len, sizeof *grey);
    uint64_t *words = lend(words_len, sizeof *words);
    struct warning warning;
    insist("the quadrants", mtb_quadrants(w, h, s, settings[TOLERANCE], settings[PERCENTILE], first->raster, first->bytes,
                                          second->raster, second->bytes, warning.offsets, 2 * QUADRANTS, &warning.turned,
                                          grey, grey_len, words, words_len));
    free(words);
    free(grey);
    return warning;
}

static void print_warning(const struct frame *frame, const uint32_t *settings, const struct warning *warning)
{
    static const char *const names[QUADRANTS] = {"upper left", "upper right", "lower left", "lower right"};
    printf("quadrants of %" PRIu32 " by %" PRIu32 " pixels, s = %" PRIu32 ", T = %" PRIu32 ", P = %" PRIu32 "\n",
           frame->w / 2, frame->h / 2, settings[HALVINGS], settings[TOLERANCE], settings[PERCENTILE]);
    puts("   dx    dy");
    for (int k = 0; k < QUADRANTS; k++) {
        printf("%5" PRId32 " %5" PRId32 "  %s\n", warning->offsets[2 * k], warning->offsets[2 * k + 1], names[k]);
    }
    puts(warning->turned ? "turned" : "not turned");
}

/* ---- The picture ---- */

struct point {
    int64_t x, y;
};

typedef const uint8_t colour[CHANNELS];
static colour pale = {160, 160, 160}, yellow = {255, 220, 0}, red = {255, 60, 60};

/* A dot of three by three pixels, as much of it as lies in the frame: a line of single ones would vanish in a small view. */
static void dot(struct frame *picture, struct point at, colour ink)
{
    for (int k = 0; k < 9; k++) {
        int64_t x = at.x + k % 3 - 1, y = at.y + k / 3 - 1;
        if (x >= 0 && x < picture->w && y >= 0 && y < picture->h) {
            memcpy(picture->raster + CHANNELS * (size_t)(y * picture->w + x), ink, CHANNELS);
        }
    }
}

static void line(struct frame *picture, struct point from, struct point to, colour ink)
{
    int64_t dx = to.x - from.x, dy = to.y - from.y, steps = llabs(dx) > llabs(dy) ? llabs(dx) : llabs(dy);
    dot(picture, from, ink);
    for (int64_t k = 1; k <= steps; k++) {
        dot(picture, (struct point){from.x + dx * k / steps, from.y + dy * k / steps}, ink);
    }
}

static void arrow(struct frame *picture, struct point from, struct point by, colour ink)
{
    struct point to = {from.x + by.x, from.y + by.y};
    line(picture, from, to, ink);
    line(picture, to, (struct point){to.x - (2 * by.x + by.y) / 8, to.y - (2 * by.y - by.x) / 8}, ink);
    line(picture, to, (struct point){to.x - (2 * by.x - by.y) / 8, to.y - (2 * by.y + by.x) / 8}, ink);
}

/* The frame in grey, half as bright, and a cross between its quadrants. */
static struct frame dimmed(const struct frame *frame)
{
    struct frame picture = {frame->w, frame->h, frame->bytes, lend(frame->bytes, 1)};
    size_t pixels = frame->bytes / CHANNELS;
    uint8_t *grey = lend(pixels, 1);
    insist("grey", mtb_grey(frame->w, frame->h, frame->raster, frame->bytes, grey, pixels));
    for (size_t i = 0; i < pixels; i++) {
        memset(picture.raster + CHANNELS * i, grey[i] / 2, CHANNELS);
    }
    free(grey);
    uint32_t w = frame->w, h = frame->h;
    line(&picture, (struct point){w / 2, 0}, (struct point){w / 2, h - 1}, pale);
    line(&picture, (struct point){0, h / 2}, (struct point){w - 1, h / 2}, pale);
    return picture;
}

/* Four arrows, x and y of each in quarters of a pixel, as a mean of four has them, and how many times as long they are drawn. */
struct arrows {
    int64_t quarters[2 * QUADRANTS], times;
};

/* As many times as the longest of them has room in a quadrant, with some to spare. */
static int64_t magnification(const struct frame *frame, const int64_t *quarters)
{
    int64_t room = 3 * (int64_t)(frame->w < frame->h ? frame->w : frame->h) / 4, longest = 1;
    for (int k = 0; k < 2 * QUADRANTS; k++) {
        longest = llabs(quarters[k]) > longest ? llabs(quarters[k]) : longest;
    }
    return room > longest ? room / longest : 1;
}

/* The offsets, less what is common to the four so many times. */
static struct arrows arrows_of(const struct frame *frame, const int32_t *o, int64_t less)
{
    int64_t common[2] = {o[0] + o[2] + o[4] + o[6], o[1] + o[3] + o[5] + o[7]};
    struct arrows arrows;
    for (int k = 0; k < 2 * QUADRANTS; k++) {
        arrows.quarters[k] = 4 * (int64_t)o[k] - less * common[k % 2];
    }
    arrows.times = magnification(frame, arrows.quarters);
    return arrows;
}

static void draw(struct frame *picture, const struct arrows *arrows, colour ink)
{
    for (int k = 0; k < QUADRANTS; k++) {
        struct point centre = {(1 + 2 * (k % 2)) * (int64_t)picture->w / 4, (1 + 2 * (k / 2)) * (int64_t)picture->h / 4};
        struct point by = {arrows->times * arrows->quarters[2 * k] / 4, arrows->times * arrows->quarters[2 * k + 1] / 4};
        arrow(picture, centre, by, ink);
    }
}

/* Red arrows are drawn no more than three times as large as the yellow ones, or a quarter of a pixel would fill a quadrant. */
static void paint(const char *name, const struct frame *frame, const struct warning *warning)
{
    struct frame picture = dimmed(frame);
    struct arrows whole = arrows_of(frame, warning->offsets, 0), rest = arrows_of(frame, warning->offsets, 1);
    rest.times = rest.times < 3 * whole.times ? rest.times : 3 * whole.times;
    draw(&picture, &whole, yellow);
    draw(&picture, &rest, red);
    printf("%s: yellow arrows %" PRId64 " times as long, red ones %" PRId64 " times\n", name, whole.times, rest.times);
    write_p6(name, picture.w, picture.h, picture.raster);
    free(picture.raster);
}

int main(int argc, char **argv)
{
    uint32_t settings[] = {[HALVINGS] = NOT_GIVEN, [TOLERANCE] = 0, [PERCENTILE] = 50, [ANGLE] = 0};
    int files = read_options(argc, argv, "stpa", settings);
    if (files == 0 || argc - files != 3) {
        fputs("usage: rotation [-s HALVINGS] [-t TOLERANCE] [-p PERCENTILE] [-a TENTHS] FIRST SECOND PICTURE\n", stderr);
        return 2;
    }
    struct frame first = read_frame(argv[files]), second = read_frame(argv[files + 1]);
    if (first.w != second.w || first.h != second.h) {
        fail(argv[files + 1], "not of the first frame's size");
    }
    if (settings[HALVINGS] == NOT_GIVEN) {
        settings[HALVINGS] = fitting_halvings(first.w / 2, first.h / 2);
    }
    if (settings[ANGLE] > 0) {
        turn_frame(&second, settings[ANGLE]);
    }
    struct warning warning = ask(&first, &second, settings);
    print_warning(&first, settings, &warning);
    paint(argv[files + 2], &first, &warning);
    free(first.raster);
    free(second.raster);
    return finish();
}
