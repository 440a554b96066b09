/* Test vectors: a call with all that it is handed, answered by the reference and written down as a record. FORMAT.md has the
 * format of the files. */
#ifndef VECTORS_H
#define VECTORS_H

#include <stdbool.h>
#include <stddef.h>
#include <stdint.h>

enum call {
    CALL_GREY = 1,
    CALL_HALVE,
    CALL_THRESHOLD,
    CALL_BITMAPS,
    CALL_SHIFT,
    CALL_TOTAL,
    CALL_DIFFERENCE,
    CALL_PAIR,
    CALL_SERIES,
    CALL_MADE_PAIR,
    CALL_MADE_SERIES,
    CALL_P6_READ,
    CALL_P6_WRITE,
    CALL_AREA,
    CALL_MOVED,
    CALL_BLINK,
    CALL_BRACKET,
    CALL_PAIR_WARD,
    CALL_SERIES_WARD,
    CALL_MADE_PAIR_WARD,
    CALL_MADE_SERIES_WARD,
    CALL_QUADRANTS,
    CALL_MADE_QUADRANTS,
    CALL_PAIR_BAND,
    CALL_SERIES_BAND,
    CALL_MADE_PAIR_BAND,
    CALL_MADE_SERIES_BAND,
    CALL_LIVE_START,
    CALL_LIVE_ADD,
    CALL_LIVE_DROP,
    CALL_LIVE_OFFSETS,
};

/* In either order, or with a band; pairs, series and quadrants of stored frames or made ones. */
bool is_pair(enum call call);
bool is_series(enum call call);
bool is_quadrants(enum call call);
bool is_made(enum call call);
/* Calls that take a first and a second raster. */
bool takes_two(enum call call);
/* Calls on a live bracket, and those of them that write its memory: their first two inputs are also their outputs. */
bool is_live(enum call call);
bool writes_held(enum call call);

/* Numbers of a record. */
enum field {
    FIELD_CALL,
    FIELD_REFUSAL,
    FIELD_W,
    FIELD_H,
    FIELD_S,
    FIELD_TOLERANCE,          /* or the band */
    FIELD_PERCENTILE,
    FIELD_N,
    FIELD_R,
    FIELD_DX,
    FIELD_DY,
    FIELD_INPUT,              /* four times: place in the pool, length */
    FIELD_OUTPUT = 19,        /* three times: length, place of the expected contents */
    FIELD_GREY = 25,          /* work memory: length, place of the expected contents when refused */
    FIELD_WORDS = 27,
    FIELD_VALUES = 29,        /* four expected values */
    FIELD_SCENE = 33,
    FIELDS = 34,
};

/* A lent input: bytes, or numbers of 4 or 8 bytes. The length counts elements. */
struct slice {
    const void *data;
    size_t length;
};

enum { MOST_OUTPUTS = 3, MOST_VALUES = 4 };

/* A call, with fields as in a record; the tolerance is the band of the calls that have one, and the numbers of a call on a live
 * bracket, but of a start, are those that its memory was made with. Frames made by a formula also have all made bytes, their rows a
 * frame and the scene. */
struct vector {
    enum call call;
    uint32_t w, h, s, tolerance, percentile, n, r;
    int32_t dx, dy;
    struct slice in[4];
    size_t out[MOST_OUTPUTS], grey, words;
    struct slice made;
    uint32_t made_rows, scene;
};

/* Gives every slice the length that the sizes and settings need, and where those are refused, that of small good ones. */
void fit_lengths(struct vector *vector);

/* What the reference answered: number, values, and the final contents of the outputs. */
struct answer {
    uint32_t refusal, values[MOST_VALUES];
    void *out[MOST_OUTPUTS];
    size_t out_bytes[MOST_OUTPUTS];
    bool whole[MOST_OUTPUTS]; /* stored in full, however long */
};

struct answer answer_of(const struct vector *vector);
void free_answer(struct answer answer);

/* A file in the making: groups of records, one after another. */
void begin_group(const char *name);
/* Adds a record with the reference's answer, and gives the refusal number. */
uint32_t add(const struct vector *vector);
/* Puts bytes into the pool beforehand, so that records share parts of them. */
void keep_bytes(const void *bytes, size_t count);
/* Writes them as the data of a program, and begins the next file. */
void end_file(const char *crates, const char *program);

#endif
