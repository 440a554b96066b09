/* P6 files: correct ones, ones spelled in every way that the rule allows, comments included, and damaged ones. */
#include "contents.h"

#include "../scenes.h"

#include <inttypes.h>
#include <stdio.h>
#include <stdlib.h>
#include <string.h>

/* A header has at most thirteen comments: three before each number, one in each, one after the last. */
enum { LONG_COMMENT = 300, HEADER_ROOM = 13 * LONG_COMMENT + 256, RASTER_ROOM = 60000 };

struct text {
    uint8_t bytes[HEADER_ROOM];
    size_t length;
};

static void put(struct text *text, const char *bytes, size_t count)
{
    memcpy(text->bytes + text->length, bytes, count);
    text->length += count;
}

/* True once in `rounds` of rounds. */
static bool rarely(uint32_t rounds)
{
    return random_below(rounds) == 0;
}

static void put_one_of(struct text *text, const char *const *list, uint32_t count)
{
    const char *chosen = list[random_below(count)];
    put(text, chosen, strlen(chosen));
}

static void put_magic(struct text *text)
{
    static const char *const wrong[] = { "P5", "P3", "p6", "P7", "6P", "P66", "P", "", " P6", "\nP6", "\xEF\xBB\xBFP6", "P6P6" };
    static const char *const commented[] = { "#c\nP6", "#\rP6", "P#c\n6", "P#\r6" };
    if (rarely(25))
        put_one_of(text, wrong, 12);
    else if (rarely(25))
        put_one_of(text, commented, 4);
    else
        put(text, "P6", 2);
}

static void put_white(struct text *text)
{
    static const char white[] = { 9, 10, 13, 32 };
    put(text, &white[random_below(4)], 1);
}

/* A comment: any bytes, often such as a header has, up to a 10 or 13; now and then it runs on. */
static void put_comment(struct text *text)
{
    static const char usual[] = { '#', ' ', 9, '0', '2', '5', 'P', '6' };
    put(text, "#", 1);
    for (uint32_t left = random_below(rarely(8) ? LONG_COMMENT - 1 : 8); left > 0; left--) {
        char byte = rarely(2) ? usual[random_below(8)] : (char)random_bits();
        if (byte != 10 && byte != 13)
            put(text, &byte, 1);
    }
    if (!rarely(40))
        put(text, rarely(2) ? "\n" : "\r", 1);
}

static void put_wrong_white(struct text *text)
{
    static const char *const wrong[] = { "", "\v", "\f", "\xA0", "-", "+", ",", "\n#", "x" };
    if (rarely(4))
        put(text, "", 1); /* a byte 0 */
    else
        put_one_of(text, wrong, 9);
}

/* Before a number: bytes of whitespace and comments, up to three; now and then something else. */
static void put_whitespace(struct text *text)
{
    if (rarely(25)) {
        put_wrong_white(text);
        return;
    }
    for (uint32_t left = 1 + random_below(3); left > 0; left--)
        if (rarely(3))
            put_comment(text);
        else
            put_white(text);
}

/* After the largest value: one byte; now and then none, two, a comment in its place, before or after it, or something else. */
static void put_last_white(struct text *text)
{
    switch (random_below(40)) {
    case 0:
        break;
    case 1:
        put_comment(text);
        break;
    case 2:
        put_comment(text);
        put_white(text);
        break;
    case 3:
        put_white(text);
        put_comment(text);
        break;
    case 4:
        put_white(text);
        put_white(text);
        break;
    case 5:
        put_wrong_white(text);
        break;
    default:
        put_white(text);
    }
}

/* A number, often with leading zeros, now and then with more than nine digits, a comment among them, or none. */
static void put_number(struct text *text, uint64_t value)
{
    char digits[32];
    int natural = snprintf(digits, sizeof digits, "%" PRIu64, value);
    int length = natural;
    if (rarely(3) && natural < 9)
        length = random_between(natural, 9);
    if (rarely(25))
        length = random_between(10, 14);
    size_t count = (size_t)snprintf(digits, sizeof digits, "%0*" PRIu64, length, value);
    size_t before = rarely(40) ? random_bits() % count : count;
    if (rarely(60))
        return;
    put(text, digits, before);
    if (before < count)
        put_comment(text);
    put(text, digits + before, count - before);
}

static uint64_t spoilt_side(uint32_t side)
{
    const uint64_t sides[] = { 0, MAX_SIDE, MAX_SIDE + 1, 65536 + side, 999999999, 4294967296 + side, UINT64_MAX };
    return sides[random_below(7)];
}

static uint64_t largest_value(void)
{
    static const uint64_t wrong[] = { 0, 1, 254, 256, 65535, 255 + 256, 65536 + 255, 4294967296 + 255, 25, 2550 };
    return rarely(20) ? wrong[random_below(10)] : 255;
}

static void put_header(struct text *text, uint64_t w, uint64_t h)
{
    put_magic(text);
    put_whitespace(text);
    put_number(text, w);
    put_whitespace(text);
    put_number(text, h);
    put_whitespace(text);
    put_number(text, largest_value());
    put_last_white(text);
}

static void insert(uint8_t *file, size_t *length, size_t at, uint8_t byte)
{
    memmove(file + at + 1, file + at, *length - at);
    file[at] = byte;
    *length += 1;
}

/* A byte changed, put in or taken out, mostly of the header. */
static void damage(uint8_t *file, size_t header_len, size_t *length)
{
    static const uint8_t bytes[] = { 0, 9, 10, 11, 12, 13, 32, '#', '-', '0', '1', '9', '/', ':', 'P', '6', 255 };
    size_t reach = header_len < *length && !rarely(4) ? header_len : *length;
    if (reach == 0)
        return;
    size_t at = random_bits() % reach;
    switch (random_below(3)) {
    case 0:
        file[at] = random_below(2) ? bytes[random_below(17)] : (uint8_t)random_bits();
        break;
    case 1:
        insert(file, length, at, bytes[random_below(17)]);
        break;
    default:
        memmove(file + at, file + at + 1, *length - at - 1);
        *length -= 1;
    }
}

/* A comment that nothing ends: a `#` put into the header, mostly near its end, and blanks for all line ends after it. */
static void cut_off_comment(uint8_t *file, size_t header_len, size_t *length)
{
    size_t reach = header_len < 16 || rarely(4) ? header_len : 16, at = header_len - random_bits() % (reach + 1);
    insert(file, length, at, '#');
    for (; at < *length; at++)
        if (file[at] == 10 || file[at] == 13)
            file[at] = ' ';
}

static size_t raster_length(uint64_t w, uint64_t h)
{
    size_t right = w <= MAX_SIDE + 1 && h <= MAX_SIDE + 1 && 3 * w * h <= RASTER_ROOM ? 3 * w * h : random_below(300);
    const size_t wrong[] = { 0, right + 1, right ? right - 1 : 1, 2 * right, right + 15, random_below(400) };
    return rarely(8) ? wrong[random_below(6)] : right;
}

static uint8_t *spelled_file(uint64_t w, uint64_t h, size_t *length)
{
    struct text header = { .length = 0 };
    put_header(&header, w, h);
    size_t raster = raster_length(w, h);
    uint8_t *file = memory(header.length + raster + 8);
    memcpy(file, header.bytes, header.length);
    random_fill(file + header.length, raster);
    *length = header.length + raster;
    if (rarely(12))
        cut_off_comment(file, header.length, length);
    if (rarely(4))
        for (uint32_t edits = 1 + random_below(3); edits > 0; edits--)
            damage(file, header.length, length);
    if (rarely(30))
        *length = random_bits() % (*length + 1);
    return file;
}

static size_t write_header(uint32_t w, uint32_t h, char header[HEADER_ROOM])
{
    return (size_t)snprintf(header, HEADER_ROOM, "P6\n%" PRIu32 " %" PRIu32 "\n255\n", w, h);
}

size_t file_bytes(uint32_t w, uint32_t h)
{
    char header[HEADER_ROOM];
    return write_header(w, h, header) + 3 * (size_t)w * h;
}

static uint8_t *correct_file(uint32_t w, uint32_t h, size_t *length)
{
    char header[HEADER_ROOM];
    size_t begin = write_header(w, h, header);
    *length = file_bytes(w, h);
    uint8_t *file = memory(*length);
    memcpy(file, header, begin);
    random_fill(file + begin, *length - begin);
    return file;
}

uint8_t *make_file(const struct numbers *numbers, bool correct, size_t *length)
{
    if (correct)
        return correct_file(numbers->w, numbers->h, length);
    uint64_t w = 1 + numbers->w % 70, h = 1 + numbers->h % 70;
    if (rarely(10))
        w = spoilt_side(numbers->w);
    if (rarely(10))
        h = w > 1000 ? 1 : spoilt_side(numbers->h);
    return spelled_file(w, h, length);
}
