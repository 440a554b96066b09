/* The live bracket: sessions in which frames come and go, limits of the held numbers, what is unused, refusals and their order. */
#include "groups.h"

#include "reference.h"

#include <stdlib.h>
#include <string.h>

enum { HELD = 36, FRAMES_PLACE = 5, PAIRS_PLACE = 6, MAX_FRAMES = 16, MOST_PIXELS = 24 * 24, STORED = 17, MOST_COUNTS = 27 * 15 };

/* The memory, and an element more of each for slices that are too long. */
struct memory {
    int32_t numbers[HELD + 1];
    uint8_t newest[MOST_PIXELS + 1];
};

/* The numbers that a memory was made with. */
struct bracket {
    uint32_t w, h, s, tolerance, percentile, frames;
};

static struct vector live_vector(enum call call, struct bracket set, const struct memory *memory, const uint8_t *raster)
{
    struct vector v = { .call = call, .w = set.w, .h = set.h, .s = set.s, .tolerance = set.tolerance, .percentile = set.percentile,
                        .n = set.frames, .in = { { memory->numbers, 0 }, { memory->newest, 0 }, { raster, 0 } } };
    fit_lengths(&v);
    return v;
}

static void fill_any(struct memory *memory)
{
    random_bytes((uint8_t *)memory->numbers, sizeof memory->numbers);
    random_bytes(memory->newest, sizeof memory->newest);
}

static int32_t most_offset(uint32_t s)
{
    return (2 << s) - 1;
}

/* Good numbers, and 0 where one is unused. */
static struct memory memory_of(struct bracket set)
{
    struct memory memory;
    const uint32_t numbers[PAIRS_PLACE] = { set.w, set.h, set.s, set.tolerance, set.percentile, set.frames };
    fill_any(&memory);
    for (int i = 0; i < HELD; i++)
        memory.numbers[i] = i < PAIRS_PLACE ? (int32_t)numbers[i] : 0;
    for (uint32_t i = 0; set.frames > 0 && i < 2 * (set.frames - 1); i++)
        memory.numbers[PAIRS_PLACE + i] = random_between(-most_offset(set.s), most_offset(set.s));
    return memory;
}

/* ---- Sessions ---- */

struct session {
    struct bracket set;
    struct memory memory;
    uint32_t area;
    const uint8_t *rasters; /* STORED of them */
    uint32_t held[MAX_FRAMES];
};

/* What the sessions have shown. */
static struct {
    int moved, full, refused[17], restarts;
} seen;

/* "the offsets told are those of the series call on the frames then held, in order" */
static void check_law(const struct session *s, const struct answer *told)
{
    static uint8_t rasters[MAX_FRAMES * 3 * MOST_PIXELS];
    uint32_t percentiles[MAX_FRAMES], counts[MOST_COUNTS], compared[MOST_COUNTS], n = s->set.frames;
    int32_t offsets[2 * MAX_FRAMES];
    size_t one = (size_t)3 * s->area;
    must(told->values[0] == n, "as many frames are told as are held");
    for (uint32_t k = 0; k < n; k++) {
        memcpy(rasters + k * one, s->rasters + s->held[k] * one, one);
        percentiles[k] = s->set.percentile;
    }
    if (n == 0)
        return;
    uint32_t number = ref_series(s->set.w, s->set.h, s->set.s, s->set.tolerance, n, 0, percentiles, n - 1, rasters, n * one, offsets,
                                 2 * MAX_FRAMES, counts, MOST_COUNTS, compared, MOST_COUNTS, NULL, SIZE_MAX, NULL, SIZE_MAX);
    must(number == 0 && memcmp(told->out[0], offsets, 8 * n) == 0, "what is told is what the series call tells");
    for (uint32_t i = 0; i < 2 * n; i++)
        seen.moved += offsets[i] != 0;
}

/* The memory after an accepted call that writes it. */
static void take_memory(struct session *s, const struct answer *a)
{
    memcpy(s->memory.numbers, a->out[0], HELD * sizeof(int32_t));
    memcpy(s->memory.newest, a->out[1], s->area);
    s->set.frames = (uint32_t)s->memory.numbers[FRAMES_PLACE];
}

/* Adds the call as a record and gives its number; the memory is then as the call has left it. */
static uint32_t step(struct session *s, const struct vector *v)
{
    struct answer a = answer_of(v);
    uint32_t number = add(v);
    seen.refused[number]++;
    if (number == 0 && writes_held(v->call))
        take_memory(s, &a);
    if (number == 0 && v->call == CALL_LIVE_OFFSETS)
        check_law(s, &a);
    free_answer(a);
    return number;
}

/* Shapes of 192 pixels with the most halvings that each allows. */
static const uint32_t shapes[][3] = { { 16, 12, 1 }, { 12, 16, 1 }, { 8, 24, 1 }, { 24, 8, 1 },
                                      { 48, 4, 0 },  { 4, 48, 0 },  { 6, 32, 0 } };

static void start(struct session *s, struct bracket set)
{
    set.frames = 0;
    struct vector v = live_vector(CALL_LIVE_START, set, &s->memory, NULL);
    must(step(s, &v) == 0, "a start is accepted");
    s->set = set;
}

static void restart(struct session *s)
{
    const uint32_t *shape = shapes[random_below(COUNT_OF(shapes))];
    start(s, (struct bracket){ shape[0], shape[1], random_below(shape[2] + 1), random_below(4) ? 0 : random_below(30),
                               one_of(all_percentiles, 3), 0 });
    seen.restarts++;
}

static void add_frame(struct session *s)
{
    uint32_t which = random_below(STORED), before = s->set.frames;
    struct vector v = live_vector(CALL_LIVE_ADD, s->set, &s->memory, s->rasters + which * (size_t)3 * s->area);
    must(step(s, &v) == (before == MAX_FRAMES ? 6 : 0), "a frame is added, but no seventeenth");
    if (before < MAX_FRAMES)
        s->held[before] = which;
    seen.full += s->set.frames == MAX_FRAMES;
}

static void drop_frame(struct session *s)
{
    uint32_t before = s->set.frames;
    struct vector v = live_vector(CALL_LIVE_DROP, s->set, &s->memory, NULL);
    must(step(s, &v) == (before == 0 ? 16 : 0), "the oldest is dropped, where there is one");
    if (before > 0)
        memmove(s->held, s->held + 1, (before - 1) * sizeof *s->held);
}

static void tell(struct session *s)
{
    struct vector v = live_vector(CALL_LIVE_OFFSETS, s->set, &s->memory, NULL);
    v.out[0] += random_below(3) ? 0 : 1 + random_below(5);
    must(step(s, &v) == 0, "the offsets are told");
}

/* A call with a slice too short or too long, which leaves everything as it was. */
static void refused_call(struct session *s)
{
    static const enum call calls[] = { CALL_LIVE_START, CALL_LIVE_ADD, CALL_LIVE_ADD, CALL_LIVE_DROP, CALL_LIVE_OFFSETS };
    struct vector v = live_vector(calls[random_below(5)], s->set, &s->memory, s->rasters);
    uint32_t which = random_below(3);
    if (v.call == CALL_LIVE_ADD && which == 0)
        v.words -= 1;
    else
        v.in[which % 2].length += random_below(2) ? 1 : -1;
    must(step(s, &v) != 0, "a wrong length is refused");
}

/* What is not in use may hold anything; the law goes on. */
static void scribble(struct session *s)
{
    int used = PAIRS_PLACE + 2 * (s->set.frames > 0 ? (int)s->set.frames - 1 : 0);
    random_bytes((uint8_t *)(s->memory.numbers + used), (size_t)(HELD - used) * sizeof(int32_t));
    if (s->set.frames == 0)
        random_bytes(s->memory.newest, s->area);
}

static void any_step(struct session *s)
{
    uint32_t which = random_below(40);
    if (which == 0)
        restart(s);
    else if (which < 20)
        add_frame(s);
    else if (which < 28)
        drop_frame(s);
    else if (which < 37)
        tell(s);
    else
        refused_call(s);
    if (random_below(6) == 0)
        scribble(s);
}

static void sessions(void)
{
    begin_group("live bracket: sessions");
    memset(&seen, 0, sizeof seen);
    uint8_t *rasters = bracket_of(16, 12, STORED, 2);
    for (int n = 0; n < 8; n++) {
        struct session s = { .area = 192, .rasters = rasters };
        fill_any(&s.memory);
        restart(&s);
        for (int i = 0; i < 36; i++)
            any_step(&s);
    }
    free(rasters);
    must(seen.moved >= 100, "in sessions frames move");
    must(seen.restarts >= 12 && seen.refused[9] >= 6 && seen.refused[16] >= 1, "sessions start anew, and some calls are refused");
}

/* One after another, a seventeenth that is refused, and all dropped again; told each time. */
static void fill_and_empty(struct bracket set, uint32_t stored, int32_t reach)
{
    uint8_t *rasters = bracket_of(set.w, set.h, STORED, reach);
    struct session s = { .area = set.w * set.h, .rasters = rasters };
    fill_any(&s.memory);
    start(&s, set);
    for (uint32_t k = 0; k < stored; k++) {
        add_frame(&s);
        tell(&s);
    }
    while (s.set.frames > 0) {
        drop_frame(&s);
        tell(&s);
    }
    drop_frame(&s);
    free(rasters);
}

static void full(void)
{
    begin_group("live bracket: sixteen frames and one more");
    memset(&seen, 0, sizeof seen);
    fill_and_empty((struct bracket){ 8, 8, 1, 0, 50, 0 }, 17, 2);
    fill_and_empty((struct bracket){ 4, 5, 0, 0, 17, 0 }, 17, 1);
    fill_and_empty((struct bracket){ 24, 24, 2, 2, 83, 0 }, 4, 5);
    fill_and_empty((struct bracket){ 16, 17, 2, 0, 50, 0 }, 5, 4);
    must(seen.refused[6] == 2 && seen.full >= 4 && seen.moved >= 150, "a seventeenth frame is refused");
}

/* ---- Limits ---- */

static const enum call on_memory[3] = { CALL_LIVE_ADD, CALL_LIVE_DROP, CALL_LIVE_OFFSETS };

static uint32_t add_on(enum call call, struct bracket set, const struct memory *memory)
{
    struct vector v = live_vector(call, set, memory, noise);
    v.out[0] = 2 * MAX_FRAMES;
    return add(&v);
}

/* A number just outside its limits, and further, and just inside. */
static const struct limits {
    int place, bads, goods;
    int32_t bad[14], good[4];
} limits[] = {
    { 0, 10, 3, { 0, -1, -17, 15, 1, 4097, 65536 + 17, INT32_MAX, INT32_MIN, INT32_MIN + 16 }, { 16, 17, 4096 } },
    { 1, 10, 3, { 0, -1, -17, 15, 1, 4097, 65536 + 17, INT32_MAX, INT32_MIN, INT32_MIN + 16 }, { 16, 17, 4096 } },
    { 2, 9, 3, { 3, 8, 9, -1, 256, 65536, INT32_MAX, INT32_MIN, INT32_MIN + 2 }, { 0, 1, 2 } },
    { 3, 9, 2, { 65, 66, -1, -64, 256, 256 + 5, INT32_MAX, INT32_MIN, INT32_MIN + 5 }, { 0, 64 } },
    { 4, 14, 3, { 0, 16, 18, 49, 51, 82, 84, 100, -17, -50, -83, 256 + 50, INT32_MAX, INT32_MIN }, { 17, 50, 83 } },
    { 5, 9, 4, { 17, 18, -1, -3, 256, 65536 + 3, INT32_MAX, INT32_MIN, INT32_MIN + 3 }, { 0, 1, 15, 16 } },
};

/* A side within its limits that the lengths do not suit is 9. */
static void add_limits(struct bracket set, const struct limits *of)
{
    struct memory memory = memory_of(set);
    for (int i = PAIRS_PLACE; i < HELD; i++)
        memory.numbers[i] = random_between(-1, 1); /* within the limits of every s */
    for (int i = 0; i < of->bads + of->goods; i++)
        for (int c = 0; c < 3; c++) {
            int32_t number = i < of->bads ? of->bad[i] : of->good[i - of->bads];
            bool empty = of->place == FRAMES_PLACE && number == 0 && on_memory[c] == CALL_LIVE_DROP;
            memory.numbers[of->place] = number;
            must((add_on(on_memory[c], set, &memory) == 16) == (i < of->bads || empty),
                 "16 is given beyond a limit, and to a drop with nothing held");
        }
}

static void numbers(void)
{
    begin_group("live bracket: the six numbers at their limits");
    for (int i = 0; i < COUNT_OF(limits); i++)
        add_limits((struct bracket){ 17, 16, 2, 5, 50, 3 }, &limits[i]);
}

/* One of the offsets at, or one beyond, its limit, or as far as it goes; in use or not. */
static void add_pair_limit(struct bracket set, uint32_t place, int32_t offset)
{
    struct memory memory = memory_of(set);
    bool used = place + 2 < 2 * set.frames, far = offset > most_offset(set.s) || offset < -most_offset(set.s);
    memory.numbers[PAIRS_PLACE + place] = offset;
    for (int c = 0; c < 3; c++)
        must((add_on(on_memory[c], set, &memory) == 16) == (used && far), "16 looks at the offsets in use");
}

static void pairs(void)
{
    static const uint32_t frames[] = { 1, 2, 3, 15, 16 };
    begin_group("live bracket: pair offsets at their limits");
    for (uint32_t s = 0; s <= 2; s++)
        for (int f = 0; f < COUNT_OF(frames); f++) {
            struct bracket set = { 16, 16, s, 0, 50, frames[f] };
            uint32_t used = 2 * (frames[f] - 1);
            int32_t most = most_offset(s), far[] = { most + 1, -most - 1, most + 1, -most - 1, INT32_MAX, INT32_MIN };
            if (used > 0) {
                add_pair_limit(set, random_below(used), random_below(2) ? most : -most);
                add_pair_limit(set, random_below(2), far[random_below(6)]);
                add_pair_limit(set, used - 1 - random_below(2), far[random_below(6)]);
            }
            if (used < HELD - PAIRS_PLACE)
                add_pair_limit(set, used + (random_below(2) ? 0 : random_below(HELD - PAIRS_PLACE - used)), far[random_below(6)]);
        }
}

/* Any numbers where none is used, and any newest grey where nothing is held: accepted, and written 0. */
static void unused(void)
{
    begin_group("live bracket: unused numbers and a free grey");
    for (uint32_t frames = 0; frames <= MAX_FRAMES; frames += 1 + frames / 4) {
        struct session s = { .set = { 12, 9, 1, 0, 83, frames }, .area = 108, .rasters = noise };
        s.memory = memory_of(s.set);
        scribble(&s);
        for (int c = 0; c < 3; c++) {
            uint32_t number = add_on(on_memory[c], s.set, &s.memory);
            must(number == (frames == 0 && c == 1 ? 16 : frames == MAX_FRAMES && c == 0 ? 6 : 0), "what is unused may be anything");
        }
    }
}

/* ---- Starts ---- */

static void starts(void)
{
    static const uint32_t sides[] = { 0, 1, 3, 4, 7, 8, 15, 16, 4096, 4097, 0xFFFFFFFF };
    struct memory memory;
    fill_any(&memory);
    begin_group("live bracket: starts");
    for (uint32_t s = 0; s <= 3; s++)
        for (int i = 0; i < COUNT_OF(sides); i++) {
            struct vector v = live_vector(CALL_LIVE_START, (struct bracket){ sides[i], 16, s, 64, 17, 0 }, &memory, NULL);
            if (i == 8)
                v.in[1].length = MOST_PIXELS; /* too large to store: 9, where nothing else applies */
            bool bad = sides[i] == 0 || sides[i] > 4096;
            must(add(&v) == (bad ? 2 : s > 2 || sides[i] < 4u << s ? 4 : i == 8 ? 9 : 0), "a side is 2^(s+2) at least");
        }
}

/* ---- Refusals ---- */

/* What the breakers make of the memory. */
static struct memory changed;

static void change(struct vector *v, int place, int32_t number)
{
    memmove(changed.numbers, v->in[0].data, sizeof changed.numbers);
    changed.numbers[place] = number;
    v->in[0].data = changed.numbers;
}

static void off_by_one(struct slice *slice)
{
    slice->length += random_below(2) ? 1 : -1;
}

static void break_numbers_length(struct vector *v)
{
    off_by_one(&v->in[0]);
}

static void break_newest(struct vector *v)
{
    off_by_one(&v->in[1]);
}

static void break_newest_or_raster(struct vector *v)
{
    off_by_one(&v->in[1 + random_below(2)]);
}

static void break_start_lengths(struct vector *v)
{
    off_by_one(&v->in[random_below(2)]);
}

static void break_side(struct vector *v)
{
    if (0 < v->w && v->w <= 4096)
        v->w = 4 + random_below(4);
    else if (0 < v->h && v->h <= 4096)
        v->h = 7;
}

/* A setting, or the first pair's offset. */
static void break_held(struct vector *v)
{
    static const int32_t bad[][2] = { { 0, 4097 }, { 1, -1 },          { 2, 2 },              { 3, 65 },
                                      { 4, 51 },   { PAIRS_PLACE, 4 }, { PAIRS_PLACE + 1, -4 } };
    const int32_t *which = bad[random_below(COUNT_OF(bad))];
    change(v, which[0], which[1]);
}

static void break_held_or_empty(struct vector *v)
{
    if (random_below(3) == 0)
        change(v, FRAMES_PLACE, 0);
    else
        break_held(v);
}

/* The pairs that come into use are (0,0). */
static void break_full(struct vector *v)
{
    change(v, FRAMES_PLACE, MAX_FRAMES);
}

static void refusals(void)
{
    static const struct breaker of_start[] = {
        { 2, false, break_size },      { 3, false, break_halvings },   { 4, false, break_side },
        { 5, false, break_tolerance }, { 8, false, break_percentile }, { 9, true, break_start_lengths },
    };
    static const struct breaker of_add[] = {
        { 9, true, break_numbers_length },   { 16, true, break_held },    { 6, true, break_full },
        { 9, true, break_newest_or_raster }, { 11, true, break_memory },
    };
    static const struct breaker of_drop[] = {
        { 9, true, break_numbers_length }, { 16, true, break_held_or_empty }, { 9, true, break_newest },
    };
    static const struct breaker of_tell[] = {
        { 9, true, break_numbers_length }, { 16, true, break_held }, { 9, true, break_newest }, { 10, true, break_output },
    };
    struct bracket set = { 9, 8, 1, 0, 50, 3 };
    struct memory memory = memory_of(set), garbage;
    fill_any(&garbage);
    begin_group("live bracket: refusals");
    add_subsets(live_vector(CALL_LIVE_START, set, &garbage, NULL), of_start, COUNT_OF(of_start), 1);
    add_subsets(live_vector(CALL_LIVE_ADD, set, &memory, noise), of_add, COUNT_OF(of_add), 2);
    add_subsets(live_vector(CALL_LIVE_DROP, set, &memory, NULL), of_drop, COUNT_OF(of_drop), 5);
    add_subsets(live_vector(CALL_LIVE_OFFSETS, set, &memory, NULL), of_tell, COUNT_OF(of_tell), 2);
}

/* ---- The file ---- */

void live_groups(uint64_t seed)
{
    random_begin(seed, "live");
    keep_bytes(noise, 3 * MOST_PIXELS);
    sessions();
    full();
    numbers();
    pairs();
    unused();
    starts();
    refusals();
}
