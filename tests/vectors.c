/* The data files: records, and the pool of bytes that they name. FORMAT.md describes them. */
#define _GNU_SOURCE /* memmem */
#include "vectors.h"

#include <stdio.h>
#include <stdlib.h>
#include <string.h>

enum { MAX_GROUPS = 64, MAX_RECORDS = 8192, MAX_POOL = 4000000, HEADER = 20, GROUP = 16, FULL_BYTES = 256 };

struct group {
    uint32_t name, name_length, first, count;
};

static struct group groups[MAX_GROUPS];
static uint32_t group_count, record_count;
static uint32_t records[MAX_RECORDS][FIELDS];
static uint8_t pool[MAX_POOL];
static size_t pool_length;

static void fail(const char *what)
{
    fprintf(stderr, "make_vectors: %s\n", what);
    exit(2);
}

/* ---- The pool ---- */

/* The place of these bytes in the pool, where they stand already or are put. */
static uint32_t keep(const void *bytes, size_t count)
{
    if (count == 0)
        return 0;
    const uint8_t *found = memmem(pool, pool_length, bytes, count);
    if (found)
        return (uint32_t)(found - pool);
    if (pool_length + count > MAX_POOL)
        fail("the pool is full");
    memcpy(pool + pool_length, bytes, count);
    pool_length += count;
    return (uint32_t)(pool_length - count);
}

void keep_bytes(const void *bytes, size_t count)
{
    keep(bytes, count);
}

static void put_number(uint8_t *at, uint64_t number, int bytes)
{
    for (int i = 0; i < bytes; i++)
        at[i] = (uint8_t)(number >> 8 * i);
}

static uint32_t keep_digest(const uint8_t *bytes, size_t count)
{
    uint64_t digest = 0xCBF29CE484222325u;
    uint8_t stored[8];
    for (size_t i = 0; i < count; i++)
        digest = (digest ^ bytes[i]) * 0x100000001B3u;
    put_number(stored, digest, 8);
    return keep(stored, 8);
}

/* The expected contents of a buffer, in full or as a digest. */
static uint32_t keep_contents(const void *bytes, size_t count, bool whole)
{
    return whole || count <= FULL_BYTES ? keep(bytes, count) : keep_digest(bytes, count);
}

/* Work memory as it was lent: the reference never touches it. */
static uint32_t keep_lent_bytes(size_t count)
{
    uint8_t *bytes = malloc(count + 1);
    for (size_t i = 0; i < count; i++)
        bytes[i] = (uint8_t)(i % 251);
    uint32_t at = keep_contents(bytes, count, false);
    free(bytes);
    return at;
}

static uint32_t keep_lent_words(size_t count)
{
    uint8_t *bytes = malloc(8 * count + 1);
    for (size_t i = 0; i < count; i++)
        put_number(bytes + 8 * i, 0xA5A5A5A5A5A5A5A5u, 8);
    uint32_t at = keep_contents(bytes, 8 * count, false);
    free(bytes);
    return at;
}

/* ---- Calls ---- */

bool is_pair(enum call call)
{
    return call == CALL_PAIR || call == CALL_MADE_PAIR || call == CALL_PAIR_WARD || call == CALL_MADE_PAIR_WARD ||
           call == CALL_PAIR_BAND || call == CALL_MADE_PAIR_BAND;
}

bool is_series(enum call call)
{
    return call == CALL_SERIES || call == CALL_MADE_SERIES || call == CALL_SERIES_WARD || call == CALL_MADE_SERIES_WARD ||
           call == CALL_SERIES_BAND || call == CALL_MADE_SERIES_BAND;
}

bool is_quadrants(enum call call)
{
    return call == CALL_QUADRANTS || call == CALL_MADE_QUADRANTS;
}

bool is_made(enum call call)
{
    return call == CALL_MADE_PAIR || call == CALL_MADE_SERIES || call == CALL_MADE_PAIR_WARD || call == CALL_MADE_SERIES_WARD ||
           call == CALL_MADE_QUADRANTS || call == CALL_MADE_PAIR_BAND || call == CALL_MADE_SERIES_BAND;
}

bool takes_two(enum call call)
{
    return is_pair(call) || is_quadrants(call) || call == CALL_BLINK;
}

bool is_live(enum call call)
{
    return call == CALL_LIVE_START || call == CALL_LIVE_ADD || call == CALL_LIVE_DROP || call == CALL_LIVE_OFFSETS;
}

bool writes_held(enum call call)
{
    return is_live(call) && call != CALL_LIVE_OFFSETS;
}

/* ---- Records ---- */

static size_t element_bytes(const struct vector *v, int input)
{
    bool words = v->call == CALL_SHIFT || v->call == CALL_TOTAL || v->call == CALL_DIFFERENCE;
    bool numbers = (is_series(v->call) || v->call == CALL_AREA || is_live(v->call)) && input == 0;
    return words ? 8 : numbers ? 4 : 1;
}

/* The made bytes hold the rasters: both inputs of a pair or of quadrants, the second of a series. Their places count from the first
 * made byte. */
static bool is_made_input(enum call call, int input)
{
    return is_made(call) && (takes_two(call) || input == 1);
}

static uint32_t input_place(const struct vector *v, int input)
{
    if (is_made_input(v->call, input))
        return (uint32_t)((const uint8_t *)v->in[input].data - (const uint8_t *)v->made.data);
    return keep(v->in[input].data, v->in[input].length * element_bytes(v, input));
}

static void put_settings(const struct vector *v, uint32_t *record)
{
    record[FIELD_CALL] = v->call;
    record[FIELD_W] = v->w;
    record[FIELD_H] = v->h;
    record[FIELD_S] = v->s;
    record[FIELD_TOLERANCE] = v->tolerance;
    record[FIELD_PERCENTILE] = v->percentile;
    record[FIELD_N] = v->n;
    record[FIELD_R] = v->r;
    record[FIELD_DX] = (uint32_t)v->dx;
    record[FIELD_DY] = (uint32_t)v->dy;
}

static int inputs_of(enum call call)
{
    if (call == CALL_DIFFERENCE)
        return 4;
    if (call == CALL_BRACKET || call == CALL_LIVE_ADD)
        return 3;
    return takes_two(call) || is_series(call) || is_live(call) ? 2 : 1;
}

static size_t output_length(const struct vector *v, const struct answer *a, int output)
{
    if (v->call == CALL_BRACKET)
        return a->out_bytes[output];
    return writes_held(v->call) ? v->in[output].length : v->out[output];
}

static void put_slices(const struct vector *v, const struct answer *a, uint32_t *record)
{
    for (int i = 0; i < inputs_of(v->call); i++) {
        record[FIELD_INPUT + 2 * i] = input_place(v, i);
        record[FIELD_INPUT + 2 * i + 1] = (uint32_t)v->in[i].length;
    }
    for (int i = 0; i < MOST_OUTPUTS; i++)
        if (a->out[i]) {
            record[FIELD_OUTPUT + 2 * i] = (uint32_t)output_length(v, a, i);
            record[FIELD_OUTPUT + 2 * i + 1] = keep_contents(a->out[i], a->out_bytes[i], a->whole[i]);
        }
}

static void put_memory(const struct vector *v, uint32_t *record)
{
    record[FIELD_GREY] = (uint32_t)v->grey;
    record[FIELD_GREY + 1] = keep_lent_bytes(v->grey);
    record[FIELD_WORDS] = (uint32_t)v->words;
    record[FIELD_WORDS + 1] = keep_lent_words(v->words);
}

static void put_made(const struct vector *v, uint32_t *record)
{
    record[FIELD_VALUES + 2] = (uint32_t)v->made.length;
    record[FIELD_VALUES + 3] = v->made_rows;
    record[FIELD_SCENE] = v->scene;
}

uint32_t add(const struct vector *v)
{
    if (record_count == MAX_RECORDS)
        fail("too many records");
    struct answer a = answer_of(v);
    uint32_t *record = records[record_count++];
    memset(record, 0, sizeof records[0]);
    put_settings(v, record);
    put_slices(v, &a, record);
    record[FIELD_REFUSAL] = a.refusal;
    for (int i = 0; i < MOST_VALUES; i++)
        record[FIELD_VALUES + i] = a.refusal ? 0 : a.values[i];
    if (is_pair(v->call) || is_series(v->call) || is_quadrants(v->call) || v->call == CALL_LIVE_ADD)
        put_memory(v, record);
    if (is_made(v->call))
        put_made(v, record);
    groups[group_count - 1].count++;
    free_answer(a);
    return a.refusal;
}

/* ---- Files ---- */

void begin_group(const char *name)
{
    if (group_count == MAX_GROUPS)
        fail("too many groups");
    uint32_t place = keep(name, strlen(name));
    groups[group_count++] = (struct group){ place, (uint32_t)strlen(name), record_count, 0 };
}

static void write_numbers(FILE *file, const uint32_t *numbers, size_t count)
{
    for (size_t i = 0; i < count; i++) {
        uint8_t bytes[4];
        put_number(bytes, numbers[i], 4);
        fwrite(bytes, 1, 4, file);
    }
}

/* Made bytes follow the pool: only now is it known where. */
static void place_made(uint32_t *record)
{
    enum call call = record[FIELD_CALL];
    for (int i = 0; i < inputs_of(call); i++)
        if (is_made_input(call, i))
            record[FIELD_INPUT + 2 * i] += (uint32_t)pool_length;
}

void end_file(const char *crates, const char *program)
{
    char path[1024];
    snprintf(path, sizeof path, "%s/%s/data/vectors.bin", crates, program);
    FILE *file = fopen(path, "wb");
    if (!file)
        fail(path);
    uint32_t begin = HEADER + GROUP * group_count + 4 * FIELDS * record_count;
    uint32_t header[4] = { group_count, record_count, begin, begin + (uint32_t)pool_length };
    fwrite("MTBV", 1, 4, file);
    write_numbers(file, header, 4);
    for (uint32_t g = 0; g < group_count; g++)
        write_numbers(file, &groups[g].name, 4);
    for (uint32_t r = 0; r < record_count; r++) {
        place_made(records[r]);
        write_numbers(file, records[r], FIELDS);
    }
    fwrite(pool, 1, pool_length, file);
    if (fclose(file) != 0)
        fail(path);
    printf("%-17s %2u groups %5u records %8u bytes\n", program, group_count, record_count, header[3]);
    group_count = record_count = 0;
    pool_length = 0;
}
