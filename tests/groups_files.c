/* P6 files; common area, moved frame, blink row; the program `bracket`. */
#include "groups.h"
#include "reference.h"

#include <stdio.h>
#include <string.h>

enum { MOST_FILE = 70000 };

/* A file in the making. */
struct bytes {
    uint8_t data[MOST_FILE];
    size_t length;
};

static void put(struct bytes *file, const void *bytes, size_t count)
{
    must(file->length + count <= sizeof file->data, "a file fits its room");
    memcpy(file->data + file->length, bytes, count);
    file->length += count;
}

static void put_text(struct bytes *file, const char *text)
{
    put(file, text, strlen(text));
}

/* ---- P6 reader ---- */

static uint32_t add_file(const void *file, size_t length)
{
    struct vector v = { .call = CALL_P6_READ, .in = { { file, length } } };
    return add(&v);
}

/* A file of this header and this many bytes of raster. */
static uint32_t add_header(const char *header, size_t header_len, size_t raster_len)
{
    static struct bytes file;
    file.length = 0;
    put(&file, header, header_len);
    put(&file, noise, raster_len);
    return add_file(file.data, file.length);
}

static uint32_t add_text(const char *header, size_t raster_len)
{
    return add_header(header, strlen(header), raster_len);
}

static uint32_t add_whole(const char *file)
{
    return add_file(file, strlen(file));
}

/* Letters follow the header: noise could begin with what a bad one lacks. */
static uint32_t add_lettered(const char *header)
{
    static struct bytes file;
    file.length = 0;
    put_text(&file, header);
    put_text(&file, "abcdef");
    return add_file(file.data, file.length);
}

static void good_headers(void)
{
    static const char *const two_by_one[] = {
        "P6\n2 1\n255\n",       "P6 2 1 255 ",        "P6\t2\t1\t255\t",       "P6\r2\r1\r255\r",
        "P6\r\n2 1\r\n255\n",   "P6 \t\r\n2 \t\r\n1 \t\r\n255\n", "P6\n\n\n2\n\n\n1\n\n\n255\n", "P6\n02 01\n0255\n",
        "P6\n000000002 000000001\n000000255\n", "P6     2     1     255\r",
    };
    begin_group("P6 reader: good headers");
    for (int i = 0; i < COUNT_OF(two_by_one); i++)
        must(add_text(two_by_one[i], 6) == 0, "a good header");
    must(add_text("P6\n1 1\n255\n", 3) == 0, "a frame of 1 by 1");
    must(add_text("P6\n4096 1\n255\n", 12288) == 0, "a frame of 4096 by 1");
    must(add_text("P6\n1 4096\n255\n", 12288) == 0, "a frame of 1 by 4096");
    must(add_text("P6\n65 63\n255\n", 12285) == 0, "a frame of 65 by 63");
}

/* Every byte in the place of each whitespace of a header: four are good. */
static void every_white(void)
{
    static const int places[4] = { 2, 4, 6, 10 };
    begin_group("P6 reader: every byte as whitespace");
    for (int k = 0; k < 4; k++)
        for (int byte = 0; byte < 256; byte++) {
            char header[] = "P6 3 2 255 ";
            header[places[k]] = (char)byte;
            bool white = byte == 9 || byte == 10 || byte == 13 || byte == 32;
            if (white || k == 0 || k == 3 || byte < 40)
                must((add_header(header, 11, 18) == 0) == white, "whitespace is 9, 10, 13 and 32");
        }
}

static void bad_headers(void)
{
    static const char *const bad[] = {
        "",                     "P",                    "6",                    "P6",                  "P6\n",
        "P5\n2 1\n255\n",       "P3\n2 1\n255\n",       "p6\n2 1\n255\n",       "P 6\n2 1\n255\n",     " P6\n2 1\n255\n",
        "P62 1 255\n",          "P6\n21\n255\n",        "P6\n2 1255\n",         "P6\n2 1\n255",        "P6\n2 1 \n",
        "P6\n2\n255\n",         "P6\n2 1\n",            "P6\n2 1\n254\n",       "P6\n2 1\n256\n",      "P6\n2 1\n0\n",
        "P6\n2 1\n25\n",        "P6\n2 1\n2550\n",      "P6\n2 1\n65535\n",     "P6\n2 1\n1\n",        "P6\n2 1\n255x",
        "P6\n0000000002 1\n255\n", "P6\n2 0000000001\n255\n", "P6\n2 1\n0000000255\n", "P6\n9999999999 1\n255\n",
        "P6\n4294967298 1\n255\n", "P6\n2 1\n4294967551\n", "P6\n99999999999999999999 1\n255\n",
        "P6\n+2 1\n255\n",      "P6\n-2 1\n255\n",      "P6\n2,1\n255\n",       "P6\n2 1\n+255\n",     "P6\n0x2 1\n255\n",
        "P6\n2. 1\n255\n",      "P6\n2 1\n255.0\n",     "P6\v2 1\n255\n",       "P6\f2 1\n255\n",      "P6\n2\v1\n255\n",
        "P6\n2 1\n255\f",       "P6\n2 1\n\n",          "P6\n\n\n\n",           "P6\n2 1\nFF\n",       "\x89PNG\r\n",
        "P6\n0 0\n254\n",       "P6\n0 1\n256\n",       "P6\n4097 1\n65535\n",
    };
    begin_group("P6 reader: bad headers");
    for (int i = 0; i < COUNT_OF(bad); i++)
        must(add_lettered(bad[i]) == 1 && add_whole(bad[i]) == 1, "a bad header is 1");
}

static void bad_sizes(void)
{
    static const char *const sizes[] = { "P6\n0 1\n255\n",   "P6\n1 0\n255\n",   "P6\n0 0\n255\n",          "P6\n4097 1\n255\n",
                                         "P6\n1 4097\n255\n", "P6\n65536 65536\n255\n", "P6\n999999999 999999999\n255\n" };
    begin_group("P6 reader: bad sizes and rasters");
    for (int i = 0; i < COUNT_OF(sizes); i++)
        must(add_text(sizes[i], 3) == 2 && add_text(sizes[i], 0) == 2, "a bad size is 2");
    for (size_t length = 0; length < 40; length++)
        must(add_text("P6\n3 2\n255\n", length) == (length == 18 ? 0 : 9), "another length of the raster is 9");
    must(add_text("P6\n2 1\n255\r\n", 6) == 9, "a second whitespace byte belongs to the raster");
    must(add_text("P6\n2 1\n255\n\n", 6) == 9, "a second whitespace byte belongs to the raster");
    must(add_text("P6\n2 1\n255\r\n", 5) == 0, "a second whitespace byte belongs to the raster");
    must(add_text("P6\n1 1\n255\nabcP6\n1 1\n255\nabc", 0) == 9, "a second image is 9");
}

/* A file cut off after each of its bytes. */
static void cut_files(void)
{
    static const char file[] = "P6 \n0003 \t2\r\n0255\nABCDEFGHIJKLMNOPQR";
    begin_group("P6 reader: cut-off and damaged files");
    for (size_t length = 0; length < sizeof file; length++)
        must((add_file(file, length) == 0) == (length == sizeof file - 1), "a cut-off file is refused");
    for (int i = 0; i < 120; i++) {
        char damaged[sizeof file];
        memcpy(damaged, file, sizeof file);
        for (uint32_t k = 0; k <= random_below(3); k++)
            damaged[random_below(19)] = "P6 \t\r\n0123456789#\v"[random_below(18)];
        add_file(damaged, sizeof file - 1 - random_below(2));
    }
}

/* ---- Comments ---- */

enum { COMMENT_PLACES = 3, LONG_COMMENT = 600 };

/* A file of 2 by 1 with this in the place of the whitespace before its width, height or largest value. */
static uint32_t add_between(int place, const char *white, size_t length)
{
    static const char *const fields[] = { "P6", "2", "1", "255" };
    static struct bytes file;
    file.length = 0;
    for (int i = 0; i < COUNT_OF(fields); i++) {
        put_text(&file, fields[i]);
        put(&file, i == place ? white : " ", i == place ? length : 1);
    }
    put(&file, noise, 6);
    return add_file(file.data, file.length);
}

/* A comment of every byte that does not end one, twice over and more. */
static size_t long_comment(char comment[LONG_COMMENT])
{
    size_t length = 0;
    comment[length++] = '#';
    for (int byte = 0; length < LONG_COMMENT - 1; byte++)
        if (byte % 256 != 10 && byte % 256 != 13)
            comment[length++] = (char)byte;
    comment[length++] = '\n';
    return length;
}

static void good_comments(void)
{
    static const char *const white[] = {
        "#c\n",       "#c\r",           "#c\r\n",                 "#c\n\r", "#\n",     "#\r",           "#\r\n",  " #c\n",
        "\t# gain\r", "\n# gain 120\n", "\r\n# gain 120\r\n",     "#c\n \t", " #c\r ",  "#a\n#b\r#\n#\r", "# \t\n", "##\n",
        "# # #\r",    "#255\r",         " #a\n\t#b\r\n #c\n ", "#P6 9 9 255\n",
    };
    char comment[LONG_COMMENT];
    size_t length = long_comment(comment);
    begin_group("P6 reader: comments at every place");
    for (int place = 0; place < COMMENT_PLACES; place++) {
        for (int i = 0; i < COUNT_OF(white); i++)
            must(add_between(place, white[i], strlen(white[i])) == 0, "a comment is whitespace");
        must(add_between(place, comment, length) == 0, "a comment may be long");
    }
    must(add_text("P6\n#c\n2 1\n255\n", 6) == 0 && add_text("P6 # c\n2 1\n255\n", 6) == 0, "a comment after P6");
    must(add_text("P6#c\n2#c\n1#c\r255\n", 6) == 0, "comments alone separate");
    must(add_text("P6\n2 1 # c\n0255 ", 6) == 0, "a zero is the largest value's first digit");
    must(add_text("P6#c\n0#c\n1#c\n255\n", 0) == 2, "a bad size among comments is 2");
    must(add_text("P6#c\n2#c\n1#c\n255\n", 5) == 9, "a short raster after comments is 9");
}

/* Every byte in a comment at all three places: all but two go on to the letter and the line end. */
static void every_comment_byte(void)
{
    begin_group("P6 reader: every byte in a comment");
    for (int byte = 0; byte < 256; byte++) {
        char header[] = "P6#.c\n2#.c\r1#.c\n255\n";
        header[3] = header[8] = header[13] = (char)byte;
        must((add_header(header, sizeof header - 1, 6) == 0) == (byte != 10 && byte != 13), "10 and 13 end a comment");
    }
}

static void misplaced_comments(void)
{
    static const char *const bad[] = {
        "#c\nP6 2 1 255 ",  "#\nP6 2 1 255 ",   "P#c\n6 2 1 255 ",  "P6 2 1 2#c\n55 ",  "P6 2 1 25#c\n5 ",
        "P6 2 1 0#c\n255 ", "P6 2 1 255#c\n",   "P6 2 1 255#\n",    "P6 2 1 255#",      "P6 2 1 255#c\n ",
        "P6 2 1 255# ",     "P6 2#c\n1 1 255 ", "P6 2 1#c\n1 255 ", "P6#2\n#1\n#255\n", "P6#c\n2#c\n1#c\n255#c\n",
        "P6 2 1 c#\n255 ",
    };
    begin_group("P6 reader: where no comment may stand");
    for (int i = 0; i < COUNT_OF(bad); i++)
        must(add_lettered(bad[i]) == 1, "a header that a comment leaves bad is 1");
    static const char *const rasters[] = { "P6 2 1 255 #cdef\n", "P6 2 1 255\n#\n#\r#\n", "P6 2 1 255\n######",
                                           "P6 2 1 255\r#\nabcd" };
    for (int i = 0; i < COUNT_OF(rasters); i++) {
        must(add_whole(rasters[i]) == 0, "a `#` after 255 and its whitespace belongs to the raster");
        must(add_lettered(rasters[i]) == 9, "a comment after 255 and its whitespace belongs to the raster");
    }
}

/* Cut off at each place: right after the `#`, later, and after all that a header goes on with. Then with a 10 or 13 in what looked
 * like the raster: good where the header goes on after it. */
static void cut_comments(void)
{
    static const char *const cut[] = {
        "P6#",         "P6 #",         "P6 # gain 120", "P6\n#c\n#",   "P6 #2 1 255 abcdef",   "P6#c\n #2 1 255 abcdef",
        "P6 2#",       "P6 2 #",       "P6 2 # wide",   "P6 2\n#c\r#", "P6 2 #1 255 abcdef",   "P6 2#c\n #1 255 abcdef",
        "P6 2 1#",     "P6 2 1 #",     "P6 2 1 # 255",  "P6 2 1#c\n#", "P6 2 1 #255 abcdef",   "P6 2 1#c\n #255 abcdef",
        "P6 #2 1 255 abcde\n", "P6 2 #1 255 abcde\r", "P6 2 1 #255 abcde\n", "P6 2 1 #255 abcd\n255",
    };
    static const char *const ended[] = { "P6 #2 1 255 abc\n2 1 255 abcdef", "P6 2 #1 255 a\r\n1 255 abcdef",
                                         "P6 2 1 #255 abc\r255 abcdef", "P6 2 1 #255 \n255 abcdef" };
    static const char whole[] = "P6 #a\r\n#\n2#b\r1\t#c\n#\r255\nabcdef";
    begin_group("P6 reader: cut-off comments");
    for (int i = 0; i < COUNT_OF(cut); i++)
        must(add_whole(cut[i]) == 1, "a comment with no whole header after it is 1");
    for (int i = 0; i < COUNT_OF(ended); i++)
        must(add_whole(ended[i]) == 0, "a later 10 or 13 ends a comment");
    for (size_t length = 0; length < sizeof whole; length++)
        must((add_file(whole, length) == 0) == (length == sizeof whole - 1), "a cut-off file is refused");
}

static void put_white_byte(struct bytes *file)
{
    put(file, &"\t\n\r "[random_below(4)], 1);
}

/* Any bytes, often such as a header has. */
static void put_comment(struct bytes *file)
{
    put_text(file, "#");
    for (uint32_t left = random_below(7); left > 0; left--) {
        char byte = random_below(2) ? "# 0125P6"[random_below(8)] : (char)random_below(256);
        if (byte != 10 && byte != 13)
            put(file, &byte, 1);
    }
    put_text(file, random_below(2) ? "\n" : "\r");
}

/* Bytes of whitespace and comments, at least one of either. */
static void put_whitespace(struct bytes *file)
{
    for (uint32_t left = 1 + random_below(3); left > 0; left--)
        if (random_below(2))
            put_white_byte(file);
        else
            put_comment(file);
}

static void put_commented_file(struct bytes *file)
{
    static const char *const fields[] = { "P6", "2", "1", "255" };
    file->length = 0;
    for (int i = 0; i < COUNT_OF(fields); i++) {
        put_text(file, fields[i]);
        if (i < COMMENT_PLACES)
            put_whitespace(file);
    }
    put_white_byte(file);
    put(file, noise + random_below(1000), 6);
}

/* A byte before the raster replaced, put in or taken out. */
static void damage(struct bytes *file)
{
    uint8_t byte = (uint8_t)"P6 \t\r\n0125#\vx"[random_below(13)];
    uint8_t *at = file->data + random_below((uint32_t)file->length - 6), *end = file->data + file->length;
    switch (random_below(3)) {
    case 0:
        *at = byte;
        break;
    case 1:
        memmove(at + 1, at, (size_t)(end - at));
        *at = byte;
        file->length++;
        break;
    default:
        memmove(at, at + 1, (size_t)(end - at) - 1);
        file->length--;
    }
}

static void random_comments(void)
{
    static struct bytes file;
    begin_group("P6 reader: random comments");
    for (int i = 0; i < 90; i++) {
        put_commented_file(&file);
        if (i % 3 == 0)
            must(add_file(file.data, file.length) == 0, "comments are whitespace");
        damage(&file);
        if (i % 3 == 1)
            damage(&file);
        add_file(file.data, file.length);
    }
}

/* ---- P6 writer ---- */

static struct vector write_vector(uint32_t w, uint32_t h)
{
    struct vector v = { .call = CALL_P6_WRITE, .w = w, .h = h, .in = { { noise + random_below(200), 0 } } };
    fit_lengths(&v);
    return v;
}

static void write_groups(void)
{
    static const uint32_t sides[][2] = { { 1, 1 },  { 2, 1 },   { 9, 9 },    { 10, 9 },   { 9, 10 },  { 10, 10 }, { 99, 1 },
                                         { 100, 1 }, { 1, 101 }, { 999, 1 }, { 1, 1000 }, { 4096, 1 }, { 1, 4096 }, { 64, 60 } };
    begin_group("P6 writer: sizes");
    for (int i = 0; i < COUNT_OF(sides); i++)
        for (size_t excess = 0; excess < 2; excess++) {
            struct vector v = write_vector(sides[i][0], sides[i][1]);
            v.out[0] += excess * 13;
            must(add(&v) == 0, "a good frame is written");
        }
    begin_group("P6 writer: refusals");
    static const struct breaker breakers[] = { { 2, false, break_size }, { 9, true, break_input }, { 10, true, break_output } };
    add_subsets(write_vector(12, 5), breakers, COUNT_OF(breakers), 8);
}

/* What the writer wrote is read as the same size and raster, also where that raster looks like comments. */
static void read_back(uint32_t w, uint32_t h, const uint8_t *raster)
{
    static uint8_t file[MOST_FILE];
    size_t raster_len = (size_t)3 * w * h, length = 0, start = 0, read_len = 0;
    uint32_t read_w = 0, read_h = 0;
    must(ref_p6_write(w, h, raster, raster_len, file, sizeof file, &length) == 0, "a good frame is written");
    must(add_file(file, length) == 0, "a written file is read");
    must(ref_p6_size(file, length, &read_w, &read_h) == 0 && read_w == w && read_h == h, "the same size is read");
    must(ref_p6_raster(file, length, &start, &read_len) == 0 && read_len == raster_len &&
             memcmp(file + start, raster, raster_len) == 0, "the same raster is read");
}

static void read_back_groups(void)
{
    static const uint32_t sides[][2] = { { 1, 1 }, { 2, 1 }, { 9, 10 }, { 10, 9 }, { 99, 1 }, { 100, 1 }, { 1, 101 } };
    static const char *const rasters[] = { "#c\n#c\r", "######", "\n\n\n\n\n\n", "\r#\n255", " 255\n#" };
    begin_group("P6 reader: what the writer wrote");
    for (int i = 0; i < COUNT_OF(sides); i++)
        read_back(sides[i][0], sides[i][1], noise + random_below(200));
    for (int i = 0; i < COUNT_OF(rasters); i++)
        read_back(2, 1, (const uint8_t *)rasters[i]);
}

void p6_groups(uint64_t seed)
{
    random_begin(seed, "p6");
    good_headers();
    every_white();
    bad_headers();
    bad_sizes();
    cut_files();
    good_comments();
    every_comment_byte();
    misplaced_comments();
    cut_comments();
    random_comments();
    write_groups();
    read_back_groups();
}

/* ---- Common area ---- */

static struct vector area_vector(uint32_t w, uint32_t h, uint32_t n, const int32_t *offsets)
{
    struct vector v = { .call = CALL_AREA, .w = w, .h = h, .n = n, .in = { { offsets, 0 } } };
    fit_lengths(&v);
    return v;
}

static void area_sizes(void)
{
    begin_group("common area: sizes, offsets and N");
    for (int i = 0; i < 160; i++) {
        int32_t offsets[32], reach = (int32_t)one_of((const uint32_t[]){ 1, 3, 8, 40, 5000, 32768 }, 6);
        for (int k = 0; k < 32; k++)
            offsets[k] = random_between(-reach, reach - 1);
        uint32_t w = 1 + random_below(i % 2 ? 20 : 4096), h = 1 + random_below(i % 2 ? 20 : 4096);
        struct vector v = area_vector(w, h, 1 + random_below(16), offsets);
        add(&v);
    }
}

/* One offset at an edge of what is allowed, or of what leaves something in common. */
static void area_edges(void)
{
    static const int32_t edges[] = { 0,     1,     -1,    8,      9,     10,        11,        -8,
                                     -9,    -10,   -11,   32767,  32768, -32768,    -32769,    INT32_MAX,
                                     INT32_MIN, 32766, -32767, 4095, -4095, 4096,   -4096,     65536 };
    begin_group("common area: edges");
    for (int i = 0; i < COUNT_OF(edges); i++)
        for (int place = 0; place < 6; place++) {
            int32_t offsets[6] = { 0, 0, 1, -1, 0, 0 };
            offsets[place] = edges[i];
            struct vector v = area_vector(place % 2 ? 4096 : 10, 10, 3, offsets);
            add(&v);
        }
}

static void break_area_frames(struct vector *v)
{
    static const uint32_t bad[] = { 0, 17, 18, 0xFFFFFFFF };
    v->n = one_of(bad, COUNT_OF(bad));
}

static const int32_t too_far[36] = { 0, 32768 }, apart[36] = { 0, 0, 12, 0 };
static const int32_t apart_too_far[36] = { 0, 0, 12, 0, -32769, 0 };

static void break_offset(struct vector *v)
{
    v->in[0].data = too_far;
}

static void break_common(struct vector *v)
{
    v->in[0].data = v->in[0].data == too_far ? apart_too_far : apart;
}

static void area_refusals(void)
{
    static const int32_t offsets[36] = { 0, 0, 3, -2, 1, 1 };
    static const struct breaker breakers[] = { { 2, false, break_size },   { 6, false, break_area_frames },
                                               { 9, true, break_input },   { 12, true, break_offset },
                                               { 13, true, break_common } };
    begin_group("common area: refusals");
    add_subsets(area_vector(12, 9, 3, offsets), breakers, COUNT_OF(breakers), 4);
}

/* ---- Moved frame ---- */

static struct vector moved_vector(uint32_t w, uint32_t h, int32_t dx, int32_t dy)
{
    struct vector v = { .call = CALL_MOVED, .w = w, .h = h, .dx = dx, .dy = dy, .in = { { noise + random_below(100), 0 } } };
    fit_lengths(&v);
    return v;
}

static void moved_groups(void)
{
    static const uint32_t sides[][2] = { { 1, 1 }, { 5, 4 }, { 64, 2 }, { 3, 17 }, { 67, 3 } };
    begin_group("moved frame: sizes and moves");
    for (int i = 0; i < COUNT_OF(sides); i++)
        for (int k = 0; k < MOVES; k++) {
            uint32_t w = sides[i][0], h = sides[i][1];
            struct vector along = moved_vector(w, h, side_move(w, k), side_move(h, (int)random_below(5)));
            struct vector across = moved_vector(w, h, side_move(w, (int)random_below(5)), side_move(h, k));
            across.out[0] += (size_t)(k % 4);
            add(&along);
            add(&across);
        }
    begin_group("moved frame: refusals");
    static const struct breaker breakers[] = { { 2, false, break_size }, { 9, true, break_input }, { 10, true, break_output } };
    add_subsets(moved_vector(6, 5, 1, -2), breakers, COUNT_OF(breakers), 8);
}

/* ---- Blink row ---- */

static struct vector blink_vector(uint32_t w, uint32_t h, uint32_t y, bool second)
{
    struct vector v = { .call = CALL_BLINK, .w = w, .h = h, .s = second, .r = y,
                        .in = { { noise, 0 }, { noise + 300, 0 } } };
    fit_lengths(&v);
    return v;
}

static void break_row(struct vector *v)
{
    uint32_t bad[] = { v->h, v->h + 1, 5000, 0x80000000, 0xFFFFFFFF };
    v->r = one_of(bad, COUNT_OF(bad));
}

static void blink_groups(void)
{
    static const uint32_t sides[][2] = { { 1, 1 }, { 1, 9 }, { 9, 1 }, { 5, 4 }, { 64, 7 }, { 3, 17 } };
    begin_group("blink row: every row of both");
    for (int i = 0; i < COUNT_OF(sides); i++)
        for (uint32_t y = 0; y <= sides[i][1]; y++)
            for (int second = 0; second < 2; second++) {
                struct vector v = blink_vector(sides[i][0], sides[i][1], y, second);
                must(add(&v) == (y == sides[i][1] ? 14 : 0), "rows are those below h");
            }
    begin_group("blink row: refusals");
    static const struct breaker breakers[] = { { 2, false, break_size }, { 9, true, break_input }, { 14, true, break_row } };
    add_subsets(blink_vector(6, 5, 3, false), breakers, COUNT_OF(breakers), 6);
    add_subsets(blink_vector(6, 5, 4, true), breakers, COUNT_OF(breakers), 6);
}

void view_groups(uint64_t seed)
{
    random_begin(seed, "views");
    area_sizes();
    area_edges();
    area_refusals();
    moved_groups();
    blink_groups();
}

/* ---- The program `bracket` ---- */

static size_t add_run(const void *input, size_t input_len, const struct bytes *first, const struct bytes *second)
{
    struct vector v = { .call = CALL_BRACKET,
                        .in = { { input, input_len }, { first->data, first->length }, { second->data, second->length } } };
    add(&v);
    uint8_t out[REF_BRACKET_ROOM];
    return ref_bracket(input, input_len, first->data, first->length, second->data, second->length, out);
}

static size_t run(const char *input, const struct bytes *first, const struct bytes *second)
{
    return add_run(input, strlen(input), first, second);
}

/* Adds the run, and tells whether it prints this text. */
static bool prints(const char *text, const char *input, const struct bytes *first, const struct bytes *second)
{
    uint8_t out[REF_BRACKET_ROOM];
    run(input, first, second);
    size_t length = ref_bracket((const uint8_t *)input, strlen(input), first->data, first->length, second->data, second->length, out);
    return length == strlen(text) && memcmp(out, text, length) == 0;
}

/* A file with this header text before the raster. */
static void put_file(struct bytes *file, const char *header, const uint8_t *raster, size_t raster_len)
{
    file->length = 0;
    put_text(file, header);
    put(file, raster, raster_len);
}

/* The two frames of document 01's printed case, each with its header. */
static void printed_files(struct bytes *first, const char *header1, struct bytes *second, const char *header2)
{
    static const char *const rows[2] = { "aaccaaccaaccabcc", "caaccaaccaaccabc" };
    static const uint8_t tones[3] = { 10, 20, 90 };
    uint8_t raster[2][48];
    for (int i = 0; i < 2 * 48; i++)
        raster[i / 48][i % 48] = tones[rows[i / 48][i % 48 / 3] - 'a'];
    put_file(first, header1, raster[0], 48);
    put_file(second, header2, raster[1], 48);
}

static const char *const good_lines[] = { "0 0 50",        "0 0 50\n",    "0 0 50\n1 1 50\n", "0 0 50\nx",  "00 00 050",
                                          "000000000 000000000 000000050", "000000000 000000000 000000050\n", "0 1 17\n",
                                          "0 64 83\n",     "0 65 50\n",   "9 0 50\n",         "1 0 50\n",   "0 0 51\n",
                                          "999999999 999999999 999999999\n", "9 65 0\n",      "1 65 0\n",   "0 65 0\n" };

static const char *const bad_lines[] = {
    "",          "\n",        " ",          "0",           "0\n",         "0 0",        "0 0\n",       "0 0 ",        "0 0 \n",
    " 0 0 50\n", "0 0 50 \n", "0  0 50\n",  "0 0  50\n",   "0 0 50 ",     "0\t0\t50\n", "0 0\t50\n",   "0 0 50\t\n",  "0 0 50\r\n",
    "0 0 50\r",  "\r0 0 50\n", "0\n0\n50\n", "\n0 0 50\n", "0 0\n50\n",   "+0 0 50\n",  "0 +0 50\n",   "0 0 +50\n",   "-1 0 50\n",
    "0 -1 50\n", "0 0 -50\n", "0 0 50 1\n", "0 0 50 0",    "0 0 50 0 0\n", "0,0,50\n",  "0, 0, 50\n",  "0;0;50\n",    "a 0 50\n",
    "0 a 50\n",  "0 0 a\n",   "0 0 50a\n",  "0a 0 50\n",   "0x0 0 50\n",  "0 0 0x32\n", "0 0 50.0\n",  "1e0 0 50\n",  "0 0 5 0\n",
    "0000000000 0 50\n", "0 0000000000 50\n", "0 0 0000000050\n", "0000000000 0000000000 0000000050\n", "4294967296 0 50\n",
    "0 4294967296 50\n", "0 0 4294967346\n", "0 0 50\f\n", "0 0\v50\n",   "s T P\n",    "0 0 50;\n",   "\"0 0 50\"\n", "0 0 50\\n",
    "\xEF\xBB\xBF" "0 0 50\n", "0\xC2\xA0" "0 50\n", "000000000 000000000 000000050 ", "0 0 50                         ",
};

/* Lines with a NUL, and a long line that goes on past every number. */
static void odd_lines(const struct bytes *first, const struct bytes *second)
{
    static const char zeros[][8] = { { '0', 0, '0', ' ', '5', '0', '\n' },
                                     { '0', ' ', '0', ' ', '5', '0', 0, '\n' },
                                     { 0, '0', ' ', '0', ' ', '5', '0', '\n' },
                                     { '0', ' ', '0', ' ', '5', '0', '\n', 0 } };
    for (int i = 0; i < COUNT_OF(zeros); i++)
        add_run(zeros[i], i == 0 ? 7 : 8, first, second);
    static char line[4000];
    memset(line, '7', sizeof line);
    add_run(line, sizeof line, first, second);
    memset(line, ' ', sizeof line);
    add_run(line, sizeof line, first, second);
    memset(line, 'x', sizeof line);
    memcpy(line, "0 0 50\n", 7);
    add_run(line, sizeof line, first, second);
}

/* The files of a run: read by `settings_lines` and all that follow. */
static struct bytes file1, file2, other, empty;

static void settings_lines(void)
{
    begin_group("bracket: settings lines");
    printed_files(&file1, "P6\n4 4\n255\n", &file2, "P6\n4 4\n255\n");
    for (int i = 0; i < COUNT_OF(good_lines); i++)
        must(run(good_lines[i], &file1, &file2) != 9, "a good line");
    for (int i = 0; i < COUNT_OF(bad_lines); i++)
        must(run(bad_lines[i], &file1, &file2) == 9, "a bad line prints `settings`");
    for (int i = 0; i < COUNT_OF(bad_lines); i += 5)
        must(run(bad_lines[i], &empty, &empty) == 9, "`settings` before any file is tested");
    odd_lines(&file1, &file2);
    for (int i = 0; i < 100; i++) {
        char line[32];
        size_t length = (size_t)sprintf(line, "%u %u %u\n", random_below(3), random_below(70), random_below(2) ? 50 : 83);
        for (uint32_t k = random_below(3); k > 0; k--)
            line[random_below((uint32_t)length)] = " 0125\n\r\tx+-"[random_below(11)];
        add_run(line, length - random_below(2), &file1, &file2);
    }
}

/* Every combination of a good file, one of another size, and files of each number. */
static void file_numbers(void)
{
    static const char *const headers[] = { "P6\n4 4\n255\n", "P6\n6 4\n255\n", "P6\n4 6\n255\n",
                                           "P6\n0 4\n255\n", "P6\n4 5\n255\n", "P5\n4 4\n255\n", "P6\n3 4\n255\n" };
    static const size_t rasters[] = { 48, 72, 72, 48, 48, 48, 36 };
    static const char *const lines[] = { "0 0 50\n", "9 0 50\n", "1 65 50\n", "0 65 51\n", "0 0 51\n" };
    begin_group("bracket: numbers of files and settings in every order");
    for (int i = 0; i < COUNT_OF(headers); i++)
        for (int k = 0; k < COUNT_OF(headers); k++)
            for (int line = 0; line < COUNT_OF(lines); line++) {
                put_file(&file1, headers[i], noise, rasters[i]);
                put_file(&file2, headers[k], noise + 80, rasters[k]);
                run(lines[line], &file1, &file2);
            }
    put_file(&file1, "P6\n4 4\n255\n", noise, 48);
    run("0 0 50\n", &empty, &file1);
    run("0 0 50\n", &file1, &empty);
    run("0 0 50\n", &empty, &empty);
}

/* The printed case with comments in one header or both; then bad headers of a good file, with no byte 10 or 13 in the raster. */
static void commented_files(void)
{
    static const char plain[] = "P6\n4 4\n255\n";
    static const char *const good[] = { "P6\n# gain 120\n4 4\n255\n", "P6\n4 # gain 120\r4\n255\n", "P6\n4 4\n# gain 120\r\n255\n",
                                        "P6#c\n4#c\n4#c\r255\n",       "P6#\r#\n4 ## 5\n 4 #255\n255 " };
    static const char *const bad[] = { "P6 #4 4 255 ",        "P6 4 #4 255 ",         "P6 4 4 #255 ",      "P6 4 4#c\n #255 ",
                                       "#c\nP6\n4 4\n255\n",  "P#c\n6\n4 4\n255\n",  "P6\n4 4\n255#c\n",  "P6\n4 4\n25#c\n5\n" };
    uint8_t flat[48];
    memset(flat, 77, sizeof flat);
    begin_group("bracket: comments in headers");
    for (int i = 0; i < COUNT_OF(good); i++)
        for (int k = 0; k < 3; k++) {
            printed_files(&file1, k == 0 ? plain : good[i], &file2, k == 1 ? plain : good[(i + k) % COUNT_OF(good)]);
            must(prints("offset -1 -1\n0: 0 0 0 5 7 6 8 10 8\n", "0 0 50\n", &file1, &file2), "comments change nothing");
        }
    for (int i = 0; i < COUNT_OF(bad); i++) {
        put_file(&file1, bad[i], flat, sizeof flat);
        put_file(&file2, good[i % COUNT_OF(good)], flat, sizeof flat);
        must(prints("refused 1\n", "0 0 50\n", &file1, &file2), "a bad comment is 1, in the first file");
        must(prints("refused 1\n", "0 0 50\n", &file2, &file1), "a bad comment is 1, in the second file");
    }
}

/* 4 by 1366 needs more words than are lent. Then a file of just 65536 bytes, and one that is good but for a comment's byte more. */
static void file_limits(void)
{
    static uint8_t raster[65505];
    begin_group("bracket: limits");
    put_file(&file1, "P6\n4 1365\n255\n", raster, 12 * 1365);
    must(run("0 0 50\n", &file1, &file1) > 20, "8190 words are enough");
    put_file(&file1, "P6\n4 1366\n255\n", raster, 12 * 1366);
    must(run("0 0 50\n", &file1, &file1) == strlen("refused 11\n"), "8196 words are too many");
    make_frames((struct made){ 1, 55, 397 }, sizeof raster, raster);
    put_file(&file1, "P6   # gain 120\r55     397 255 ", raster, sizeof raster);
    put_file(&other, "P6   # gain 1200\r55     397 255 ", raster, sizeof raster);
    must(file1.length == 65536 && run("3 0 50\n", &file1, &file1) > 60, "65536 bytes are read");
    must(other.length == 65537 && run("3 0 50\n", &other, &file1) == 10, "65537 bytes count as empty");
    must(run("3 0 50\n", &file1, &other) == 10, "65537 bytes count as empty");
}

/* Scenes with detail, as files. */
static void alignments(void)
{
    static uint8_t raster[3 * 70 * 40];
    static const uint32_t sides[][2] = { { 32, 33 }, { 40, 32 }, { 66, 34 } };
    begin_group("bracket: alignments");
    for (int i = 0; i < COUNT_OF(sides); i++) {
        uint32_t w = sides[i][0], h = sides[i][1];
        char header[32];
        struct scene scene = random_scene(w, h);
        sprintf(header, "P6\n%u %u\n255\n", w, h);
        expose(&scene, (struct exposure){ 0, 0, 64, 0, 1 }, w, h, raster);
        put_file(&file1, header, raster, (size_t)3 * w * h);
        expose(&scene, (struct exposure){ random_between(-6, 6), random_between(-6, 6), 80, 9, 1 }, w, h, raster);
        put_file(&file2, header, raster, (size_t)3 * w * h);
        for (uint32_t s = 0; s <= 4; s++)
            for (int p = 0; p < 3; p++) {
                char line[32];
                sprintf(line, "%u %u %u\n", s, 2 * s, p == 0 ? 17 : p == 1 ? 50 : 83);
                run(line, &file1, &file2);
            }
    }
}

void bracket_groups(uint64_t seed)
{
    random_begin(seed, "bracket");
    settings_lines();
    file_numbers();
    commented_files();
    file_limits();
    alignments();
}
