#include "bracket_cases.h"

#include "../scenes.h"

#include <stdio.h>
#include <stdlib.h>
#include <string.h>

#define SAMPLES "../../samples/"

enum { HEADER_ROOM = 64, MOST_SAMPLE = 65536, TONE = 77 };

/* ---- Files ---- */

static uint8_t *block(size_t bytes)
{
    uint8_t *new = malloc(bytes ? bytes : 1);
    if (!new) {
        fprintf(stderr, "bracket: no memory\n");
        exit(2);
    }
    return new;
}

static void spell_letters(const struct file *file, uint8_t *raster)
{
    for (size_t i = 0; i < (size_t)3 * file->w * file->h; i++)
        raster[i] = file->tones[file->text[i / 3] - 'a'];
}

/* Frames of one size see one scene, each with noise of its own; all but the one at (0,0) are exposed longer. The seed is one by which
 * Ward's method finds every slide of the table. */
static void view_scene(const struct file *file, uint8_t *raster)
{
    struct exposure by = { file->x, file->y, 64, 0, 1 };
    if (file->x != 0 || file->y != 0) {
        by.gain = 80;
        by.black = 9;
    }
    random_begin(((uint64_t)file->w << 32) + file->h, "bracket");
    struct scene scene = random_scene(file->w, file->h);
    random_begin(((uint64_t)(uint32_t)file->x << 32) + (uint32_t)file->y, "noise");
    expose(&scene, by, file->w, file->h, raster);
}

static void fill(const struct file *file, uint8_t *raster, size_t length)
{
    switch (file->kind) {
    case LETTERS:
        spell_letters(file, raster);
        break;
    case VIEW:
        view_scene(file, raster);
        break;
    case NOISE:
        random_begin((uint64_t)file->x, "pixels");
        random_bytes(raster, length);
        break;
    default:
        memset(raster, TONE, length);
    }
}

/* Blanks, or a comment of them. */
static void put_blanks(uint8_t *at, size_t count, bool comment)
{
    memset(at, ' ', count);
    if (comment) {
        at[0] = '#';
        at[count - 1] = '\n';
    }
}

static uint8_t *frame_bytes(const struct file *file, size_t *length)
{
    char plain[HEADER_ROOM];
    snprintf(plain, sizeof plain, "P6\n%u %u\n255\n", (unsigned)file->w, (unsigned)file->h);
    const char *header = file->header ? file->header : plain;
    size_t header_len = strlen(header), raster_len = file->kind == BYTES ? file->follow : (size_t)3 * file->w * file->h;
    size_t blanks = file->length ? file->length - header_len - raster_len : 0, before = blanks ? strlen("P6") : 0;
    *length = header_len + blanks + raster_len;
    uint8_t *bytes = block(*length);
    memcpy(bytes, header, before);
    put_blanks(bytes + before, blanks, file->comment);
    memcpy(bytes + before + blanks, header + before, header_len - before);
    fill(file, bytes + header_len + blanks, raster_len);
    return bytes;
}

static uint8_t *sample_bytes(const struct file *file, size_t *length)
{
    char path[HEADER_ROOM];
    static uint8_t room[MOST_SAMPLE];
    snprintf(path, sizeof path, SAMPLES "%s", file->text);
    FILE *from = fopen(path, "rb");
    if (!from) {
        perror(path);
        exit(2);
    }
    *length = fread(room, 1, sizeof room, from);
    fclose(from);
    return memcpy(block(*length), room, *length);
}

uint8_t *file_bytes(const struct file *file, size_t *length)
{
    *length = 0;
    if (file->kind >= MISSING)
        return block(0);
    return file->kind == SAMPLE ? sample_bytes(file, length) : frame_bytes(file, length);
}

/* ---- The files of the table ---- */

/* In parentheses, so that each is one argument of a macro. */
#define HEADER(spelled, bytes) ((const struct file){ .kind = BYTES, .header = spelled, .follow = bytes })
#define SPELLED(spelled) ((const struct file){ .kind = LETTERS, .header = spelled, PRINTED_FIRST })
#define SPELLED_SECOND(spelled) ((const struct file){ .kind = LETTERS, .header = spelled, PRINTED_SECOND })
#define COMMENTED(bytes) ((const struct file){ .kind = LETTERS, PRINTED_FIRST, .length = bytes, .comment = true })
#define FLAT(side1, side2) ((const struct file){ .kind = EVEN, .w = side1, .h = side2 })
#define RANDOM(side1, side2, seed) ((const struct file){ .kind = NOISE, .w = side1, .h = side2, .x = seed })
#define SEEN(side1, side2, at_x, at_y) LONG_SEEN(side1, side2, at_x, at_y, 0)
#define LONG_SEEN(side1, side2, at_x, at_y, bytes) \
    ((const struct file){ .kind = VIEW, .w = side1, .h = side2, .x = at_x, .y = at_y, .length = bytes })

/* Document 01's printed case; its first frame "with 10, 20, 90 replaced by 3, 4, 200". */
#define PRINTED_FIRST .text = "aaccaaccaaccabcc", .tones = { 10, 20, 90 }, .w = 4, .h = 4
#define PRINTED_SECOND .text = "caaccaaccaaccabc", .tones = { 10, 20, 90 }, .w = 4, .h = 4
static const struct file first = { .kind = LETTERS, PRINTED_FIRST };
static const struct file second = { .kind = LETTERS, PRINTED_SECOND };
static const struct file brighter = { .kind = LETTERS, .text = "aaccaaccaaccabcc", .tones = { 3, 4, 200 }, .w = 4, .h = 4 };
#define ANSWER "offset -1 -1\n0: 0 0 0 5 7 6 8 10 8\n"
#define NINE_ZEROS "0 0 0 0 0 0 0 0 0\n"

static const struct file sample1 = { .kind = SAMPLE, .text = "first.ppm" };
static const struct file sample2 = { .kind = SAMPLE, .text = "second.ppm" };
static const struct file sample3 = { .kind = SAMPLE, .text = "third.ppm" };

static const struct file missing = { .kind = MISSING }, directory = { .kind = DIRECTORY }, loop = { .kind = LOOP };
static const struct file empty = { .kind = BYTES, .header = "" };

/* 3·140·156 bytes after a header of 15 and one blank: 65536. So too 16 by 1365, for which 6·W·h just fits 8192 words. */
#define FULL(x, y) LONG_SEEN(140, 156, x, y, 65536)
#define LONGER(x, y) LONG_SEEN(140, 156, x, y, 65537)
#define TALL(x, y) LONG_SEEN(16, 1365, x, y, 65536)

/* ---- The table ---- */

#define FILES(one, two) .first = &one, .second = &two
#define LINE(text) .input = { text, sizeof text - 1 }
#define GOOD(title, line, ...) { title, LINE(line), FILES(first, second), .prints = ANSWER, __VA_ARGS__ }
#define BAD(title, line, ...) { title, LINE(line), FILES(first, second), .prints = "settings\n", __VA_ARGS__ }
#define PRINTS(answer, title, line, one, two) { title, LINE(line), FILES(one, two), .prints = answer }
#define REFUSED(number, title, line, one, two) PRINTS("refused " #number "\n", title, line, one, two)
#define SLID(offset, title, line, one, two) { title, LINE(line), FILES(one, two), .begins = "offset " offset "\n" }
#define UNKNOWN(title, line, one, two) { title, LINE(line), FILES(one, two) }

/* Of the refusal numbers, `bracket` can print 1, 2, 3, 4, 5, 8, 9 and 11: it has no series (6, 7), no common area (12, 13) and no
 * blink row (14), and lends room for all counts (10). By 11 it is always words that are short: the grey memory of a frame that
 * fits 65536 bytes is below 8/3 of its 21841 pixels. */
const struct run runs[] = {
    /* Settings lines. */
    GOOD("document 01's printed case", "0 0 50\n"),
    GOOD("no line end", "0 0 50"),
    GOOD("text after the line end", "0 0 50\n1 1 17\nand more than thirty bytes of it"),
    GOOD("nine digits", "000000000 000000000 000000050\n"),
    GOOD("nine digits, no line end", "000000000 000000000 000000050"),
    GOOD("input from a file", "0 0 50\n", .from_file = true),
    GOOD("line in two parts", "0 0 50\n", .piece = 4),
    GOOD("line end apart", "0 0 50\n", .piece = 6),
    GOOD("no line end, byte by byte", "0 0 50", .piece = 1),
    GOOD("longest line, byte by byte", "000000000 000000000 000000050\n", .piece = 1),
    GOOD("pipe left open after the line", "0 0 50\n", .left_open = true),
    GOOD("pipe left open, line in two parts", "0 0 50\n", .piece = 4, .left_open = true),
    GOOD("text after the line end, later", "0 0 50\n 0 0 0", .piece = 7),
    BAD("empty input", ""),
    BAD("empty input from a file", "", .from_file = true),
    BAD("empty line", "\n"),
    BAD("pipe left open after an empty line", "\n", .left_open = true),
    BAD("numbers on the second line", "\n0 0 50\n"),
    BAD("one number", "0\n"),
    BAD("two numbers", "0 0\n"),
    BAD("two numbers and a blank", "0 0 \n"),
    BAD("four numbers", "0 0 50 50\n"),
    BAD("three lines", "0\n0\n50\n"),
    BAD("leading blank", " 0 0 50\n"),
    BAD("trailing blank", "0 0 50 \n"),
    BAD("trailing blank, no line end", "0 0 50 "),
    BAD("trailing blank, later", "0 0 50 \n", .piece = 6),
    BAD("two blanks", "0  0 50\n"),
    BAD("tab", "0 0\t50\n"),
    BAD("carriage return", "0 0 50\r\n"),
    BAD("plus sign", "0 0 +50\n"),
    BAD("minus sign", "-1 0 50\n"),
    BAD("letters", "s T P\n"),
    BAD("letter after a number", "0 0 50x\n"),
    BAD("NUL at the end", "0 0 50\0\n"),
    BAD("NUL for a blank", "0\0000 50\n"),
    BAD("ten digits for s", "0000000000 0 50\n"),
    BAD("ten digits for T", "0 0000000000 50\n"),
    BAD("ten digits for P", "0 0 0000000050\n"),
    BAD("ten digits that are P in 32 bits", "0 0 4294967346\n"),
    BAD("30 bytes, 29 of them a good line", "000000000 000000000 000000050 "),
    BAD("30 bytes, ten digits at the end", "000000000 000000000 0000000500"),
    PRINTS("settings\n", "bad line, no files", "0 0\n", missing, missing),
    PRINTS("settings\n", "bad line, a directory and an empty file", "0 0 50 \n", directory, empty),
    PRINTS("settings\n", "bad line, numbers out of range, frames too small", "9 65 51 0\n", FLAT(3, 3), second),

    /* Files that cannot be read, or are too long. */
    REFUSED(1, "first missing", "0 0 50\n", missing, second),
    REFUSED(1, "second missing", "0 0 50\n", first, missing),
    REFUSED(1, "both missing", "0 0 50\n", missing, missing),
    REFUSED(1, "first empty", "0 0 50\n", empty, second),
    REFUSED(1, "second empty", "0 0 50\n", first, empty),
    REFUSED(1, "first a directory", "0 0 50\n", directory, second),
    REFUSED(1, "second a directory", "0 0 50\n", first, directory),
    REFUSED(1, "second a link to itself", "0 0 50\n", first, loop),
    SLID("3 -5", "both of 65536 bytes", "4 2 50\n", FULL(0, 0), FULL(3, -5)),
    SLID("-2 6", "second of 65536 bytes", "3 4 50\n", SEEN(140, 156, 0, 0), FULL(-2, 6)),
    REFUSED(1, "first of 65537 bytes", "4 2 50\n", LONGER(0, 0), FULL(3, -5)),
    REFUSED(1, "second of 65537 bytes", "4 2 50\n", FULL(0, 0), LONGER(3, -5)),
    REFUSED(1, "first of 65537 bytes, too long by one", "0 0 50\n", HEADER("P6 140 156  255 ", 65521), second),
    REFUSED(9, "first of 65536 bytes, too long by one", "0 0 50\n", HEADER("P6 140 156 255 ", 65521), second),

    /* Headers. */
    PRINTS(ANSWER, "every whitespace, leading zeros", "0 0 50\n", SPELLED("P6\r\n\t 004\t000000004\r0255\t"), second),
    REFUSED(1, "P5", "0 0 50\n", HEADER("P5\n4 4\n255\n", 48), second),
    REFUSED(1, "no blank after P6", "0 0 50\n", first, HEADER("P64 4 255\n", 48)),
    REFUSED(1, "largest value 254", "0 0 50\n", HEADER("P6\n4 4\n254\n", 48), second),
    REFUSED(1, "largest value 256 in the second", "0 0 50\n", first, HEADER("P6\n4 4\n256\n", 48)),
    REFUSED(1, "ten digits in a header", "0 0 50\n", HEADER("P6\n0000000004 4\n255\n", 48), second),
    REFUSED(1, "no whitespace before the raster", "0 0 50\n", HEADER("P6\n4 4\n255", 48), second),
    REFUSED(1, "second cut off in its header", "0 0 50\n", first, HEADER("P6\n4 4\n25", 0)),
    REFUSED(2, "width 0", "0 0 50\n", HEADER("P6\n0 4\n255\n", 0), second),
    REFUSED(2, "second of height 0", "0 0 50\n", first, HEADER("P6\n4 0\n255\n", 0)),
    REFUSED(2, "width 4097", "0 0 50\n", HEADER("P6\n4097 4\n255\n", 3 * 4097 * 4), second),
    REFUSED(2, "second of height 4097", "0 0 50\n", first, HEADER("P6\n4 4097\n255\n", 3 * 4 * 4097)),

    /* Comments in headers. After HEADER no byte is 10 or 13; the tone 10 of the printed case is a line end. */
    PRINTS(ANSWER, "comment line", "0 0 50\n", SPELLED("P6\n# gain 120\n4 4\n255\n"), second),
    PRINTS(ANSWER, "comment right after P6", "0 0 50\n", SPELLED("P6# gain 120\n4 4\n255\n"), second),
    PRINTS(ANSWER, "comment after the width", "0 0 50\n", first, SPELLED_SECOND("P6\n4# wide\n 4\n255\n")),
    PRINTS(ANSWER, "comment after the height", "0 0 50\n", SPELLED("P6\n4 4 # high\n255\n"), second),
    PRINTS(ANSWER, "comments alone separate", "0 0 50\n", first, SPELLED_SECOND("P6#c\n4#c\n4#c\r255\n")),
    PRINTS(ANSWER, "comment that a 13 ends", "0 0 50\n", SPELLED("P6\n# gain 120\r4 4\n255\n"), second),
    PRINTS(ANSWER, "comments that 13 10 ends", "0 0 50\n", SPELLED("P6\r\n# gain 120\r\n4 4\r\n#\r\n255\n"), second),
    PRINTS(ANSWER, "comments in both", "0 0 50\n", SPELLED("P6\n# one\n#\n4 4\n255\n"), SPELLED_SECOND("P6 ##\r4 # 5\n4\n255\n")),
    PRINTS(ANSWER, "comment up to 65536 bytes", "0 0 50\n", COMMENTED(65536), second),
    REFUSED(1, "comment up to 65537 bytes", "0 0 50\n", COMMENTED(65537), second),
    REFUSED(1, "comment cut off after P6", "0 0 50\n", HEADER("P6 # gain 120", 0), second),
    REFUSED(1, "comment cut off after the width, in the second", "0 0 50\n", first, HEADER("P6\n4 #", 0)),
    REFUSED(1, "comment cut off after the height", "0 0 50\n", HEADER("P6 4 4 #255 ", 48), second),
    REFUSED(1, "comment cut off after the height, in the second", "0 0 50\n", first, HEADER("P6 4 4 #255 ", 48)),
    REFUSED(1, "comment that runs into the raster", "0 0 50\n", SPELLED("P6 4 4 #255 "), second),
    REFUSED(1, "comment right after 255", "0 0 50\n", HEADER("P6\n4 4\n255# c\n", 48), second),
    REFUSED(1, "comment in the largest value", "0 0 50\n", first, HEADER("P6\n4 4\n25# c\n5\n", 48)),
    REFUSED(1, "comment before P6", "0 0 50\n", HEADER("# c\nP6\n4 4\n255\n", 48), second),
    REFUSED(9, "comment line after 255", "0 0 50\n", HEADER("P6\n4 4\n255\n# c\n", 48), second),

    /* Settings, lengths, sizes, memory. */
    REFUSED(3, "s = 9", "9 0 50\n", first, second),
    REFUSED(3, "greatest numbers", "999999999 999999999 999999999\n", first, second),
    REFUSED(4, "width 15, s = 2", "2 0 50\n", FLAT(15, 16), FLAT(15, 16)),
    REFUSED(4, "height 15, s = 2", "2 0 50\n", FLAT(16, 15), FLAT(16, 15)),
    REFUSED(4, "s = 8", "8 0 50\n", FULL(0, 0), FULL(3, -5)),
    REFUSED(5, "T = 65", "0 65 50\n", first, second),
    PRINTS("offset -1 -1\n0: " NINE_ZEROS, "T = 64", "0 64 50\n", first, second),
    REFUSED(8, "P = 51", "0 0 51\n", first, second),
    REFUSED(8, "P = 0", "0 0 0\n", first, second),
    REFUSED(9, "raster too short", "0 0 50\n", HEADER("P6\n4 4\n255\n", 47), second),
    REFUSED(9, "second raster too long", "0 0 50\n", first, HEADER("P6\n4 4\n255\n", 49)),
    REFUSED(9, "second raster missing", "0 0 50\n", first, HEADER("P6\n4 4\n255\n", 0)),
    REFUSED(9, "carriage return and line end before the raster", "0 0 50\n", HEADER("P6\n4 4\n255\r\n", 48), second),
    REFUSED(9, "first byte of the raster taken for whitespace", "0 0 50\n", SPELLED("P6\n4 4\n255"), second),
    REFUSED(9, "4 by 4 and 4 by 5", "0 0 50\n", first, FLAT(4, 5)),
    REFUSED(9, "4 by 6 and 6 by 4", "0 0 50\n", FLAT(4, 6), FLAT(6, 4)),
    REFUSED(11, "4 by 1366", "0 0 50\n", SEEN(4, 1366, 0, 0), SEEN(4, 1366, 0, 1)),
    REFUSED(11, "15 by 1366", "1 0 50\n", SEEN(15, 1366, 0, 0), SEEN(15, 1366, 0, 1)),
    REFUSED(11, "5 by 4096", "0 0 50\n", SEEN(5, 4096, 0, 0), SEEN(5, 4096, 0, 1)),
    SLID("0 1", "4 by 1365", "0 0 50\n", SEEN(4, 1365, 0, 0), SEEN(4, 1365, 0, 1)),
    SLID("0 3", "16 by 1365, 65536 bytes", "2 0 50\n", TALL(0, 0), TALL(0, 3)),

    /* The order of the numbers: the first file's, else the second's, else the pair's lowest. */
    REFUSED(9, "first 9, second 1, s = 9", "9 0 50\n", HEADER("P6\n4 4\n255\n", 47), empty),
    REFUSED(2, "first 2, second missing", "0 0 50\n", HEADER("P6\n0 4\n255\n", 0), missing),
    REFUSED(1, "width 0 and largest value 254", "0 0 50\n", HEADER("P6\n0 4\n254\n", 0), second),
    REFUSED(2, "width 0 and bytes after it", "0 0 50\n", HEADER("P6\n0 4\n255\n", 7), second),
    REFUSED(9, "second 9, s = 9", "9 0 50\n", first, HEADER("P6\n4 4\n255\n", 49)),
    REFUSED(3, "s = 9, T = 65, P = 51, another size", "9 65 51\n", first, FLAT(4, 5)),
    REFUSED(4, "s = 1, T = 65, P = 51, another size", "1 65 51\n", first, FLAT(8, 8)),
    REFUSED(5, "T = 65, P = 51, another size", "0 65 51\n", first, FLAT(4, 5)),
    REFUSED(8, "P = 51, another size", "0 0 51\n", first, FLAT(4, 5)),
    REFUSED(9, "second too small", "1 0 50\n", FLAT(8, 8), FLAT(4, 4)),
    REFUSED(9, "another size, words short", "0 0 50\n", FLAT(4, 1366), FLAT(4, 1367)),

    /* Alignments. */
    PRINTS(ANSWER, "first frame re-exposed", "0 0 50\n", brighter, second),
    PRINTS("offset -7 -7\n2: " NINE_ZEROS "1: " NINE_ZEROS "0: " NINE_ZEROS, "flat, 16 by 16", "2 0 50\n",
           FLAT(16, 16), FLAT(16, 16)),
    SLID("-63 -63", "flat, s = 5", "5 0 17\n", FLAT(128, 128), FLAT(128, 128)),
    UNKNOWN("frames exchanged", "0 0 50\n", second, first),
    UNKNOWN("random pixels, counts of five digits", "0 0 50\n", RANDOM(140, 156, 1), RANDOM(140, 156, 2)),
    UNKNOWN("random pixels, s = 5", "5 0 50\n", RANDOM(140, 156, 1), RANDOM(140, 156, 2)),
    SLID("4 3", "32 by 33", "2 2 50\n", SEEN(32, 33, 0, 0), SEEN(32, 33, 4, 3)),
    SLID("-5 2", "64 by 64", "3 2 50\n", SEEN(64, 64, 0, 0), SEEN(64, 64, -5, 2)),
    SLID("2 -7", "65 by 66, P = 17", "3 2 17\n", SEEN(65, 66, 0, 0), SEEN(65, 66, 2, -7)),
    SLID("-6 -6", "127 by 129, P = 83", "4 2 83\n", SEEN(127, 129, 0, 0), SEEN(127, 129, -6, -6)),
    SLID("9 -4", "147 by 147", "4 3 50\n", SEEN(147, 147, 0, 0), SEEN(147, 147, 9, -4)),
    SLID("-11 8", "147 by 147, P = 17", "4 3 17\n", SEEN(147, 147, 0, 0), SEEN(147, 147, -11, 8)),
    SLID("20 -14", "147 by 147, P = 83, s = 5", "5 2 83\n", SEEN(147, 147, 0, 0), SEEN(147, 147, 20, -14)),
    SLID("-8 5", "200 by 100", "3 4 50\n", SEEN(200, 100, 0, 0), SEEN(200, 100, -8, 5)),
    SLID("5 -3", "samples, first and second", "3 4 50\n", sample1, sample2),
    SLID("-4 6", "samples, first and third", "3 4 50\n", sample1, sample3),
    SLID("-9 9", "samples, second and third, P = 17", "4 4 17\n", sample2, sample3),
    SLID("4 -6", "samples, third and first, P = 83", "3 0 83\n", sample3, sample1),
};

const size_t run_count = sizeof runs / sizeof *runs;
