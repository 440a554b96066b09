/* Sizes, settings and moves of a trial. */
#include "trial.h"

#include "../scenes.h"

#define PICK(list) list[random_below(sizeof list / sizeof *list)]

enum { ROOM = 400000 }; /* pixels that buffers for refused sizes may have */

bool tests_refusal(const struct call *call, uint32_t number)
{
    for (const uint8_t *refusal = call->refusals; *refusal; refusal++)
        if (*refusal == number)
            return true;
    return false;
}

/* ---- Good numbers ---- */

/* The least side that refusal 4 leaves. */
static uint32_t least_side(const struct call *call, uint32_t s)
{
    if (tests_refusal(call, 3) || tests_refusal(call, 16))
        return (quartered(call) ? 8u : 4u) << s;
    return tests_refusal(call, 4) ? 2 : 1;
}

/* 1 to 200, more often small, and often beside a multiple of 64. */
static uint32_t choose_side(uint32_t least)
{
    static const uint32_t most[] = { 8, 20, 20, 70, 70, 200 };
    uint32_t side = 1 + random_below(PICK(most));
    if (random_below(5) == 0)
        side = (uint32_t)(64 * random_between(1, 3) + random_between(-1, 1));
    return side < least ? least + random_below(least / 2 + 1) : side;
}

static int32_t choose_move(uint32_t side)
{
    int32_t far = (int32_t)side;
    const int32_t special[] = { 0, far, -far, far - 1, 1 - far, far + 1, -far - 1, 63, -63, 64, -64, 65, -65, 128, -128,
                                65536, -65536, 65537, 1 << 30, INT32_MAX, INT32_MIN, INT32_MAX - 1, INT32_MIN + 1,
                                INT32_MAX - far, INT32_MIN + far };
    switch (random_below(4)) {
    case 0:
        return PICK(special);
    case 1:
        return random_between(-3, 3);
    case 2:
        return (int32_t)random_bits();
    default:
        return random_between(-far - 2, far + 2);
    }
}

static uint32_t choose_frames(void)
{
    static const uint32_t frames[] = { 1, 2, 2, 3, 3, 4 };
    return random_below(12) ? PICK(frames) : 1 + random_below(MAX_FRAMES);
}

uint32_t choose_tolerance(void)
{
    static const uint32_t tolerances[] = { 0, 1, 4, 63, MAX_TOLERANCE };
    return random_below(2) ? PICK(tolerances) : random_below(MAX_TOLERANCE + 1);
}

static uint32_t choose_band(void)
{
    static const uint32_t bands[] = { 0, 1, 15, MAX_BAND, MAX_BAND };
    return random_below(2) ? PICK(bands) : random_below(MAX_BAND + 1);
}

static void choose_good(struct numbers *good, const struct call *call)
{
    static const uint32_t halvings[] = { 0, 0, 0, 0, 1, 1, 1, 2, 2, 2, 3, 3, 4, 5 };
    static const uint32_t percentiles[] = { 17, 50, 83 };
    good->s = PICK(halvings);
    good->w = choose_side(least_side(call, good->s));
    good->h = choose_side(least_side(call, good->s));
    good->tolerance = choose_tolerance();
    if (tests_refusal(call, 15))
        good->band = choose_band();
    good->percentile = PICK(percentiles);
    good->n = choose_frames();
    good->threshold = (uint8_t)random_bits();
    good->second = random_below(2);
}

static void take_shape(struct numbers *good, const struct shape *large, uint32_t least)
{
    good->w = large->w < least ? least : large->w;
    good->h = large->h < least ? least : large->h;
    good->s = large->s;
    good->n = large->n;
}

static void choose_dependent(struct numbers *good)
{
    good->r = random_below(good->n);
    good->y = random_below(good->h);
    good->dx = choose_move(good->w);
    good->dy = choose_move(good->h);
}

/* ---- Spoilt ones ---- */

uint32_t above(uint32_t limit, uint32_t good)
{
    const uint32_t special[] = { limit + 1, limit + 1, limit + 2, 256 + good, 65536 + good, 0x80000000 + good,
                                 UINT32_MAX, (uint32_t)random_bits() };
    uint32_t value = PICK(special);
    return value > limit ? value : limit + 1;
}

/* More often just above the limit. */
static uint32_t bad_band(uint32_t good)
{
    static const uint32_t near[] = { MAX_BAND + 1, MAX_BAND + 1, MAX_BAND + 1, MAX_BAND + 2, MAX_BAND + 3, MAX_BAND + 4 };
    return random_below(3) ? PICK(near) : above(MAX_BAND, good);
}

static bool has_room(uint32_t w, uint32_t h)
{
    return w <= MAX_SIDE + 2 && h <= MAX_SIDE + 2 && w * h <= ROOM;
}

static void spoil_sizes(struct trial *t)
{
    uint32_t which = 1 + random_below(3);
    if (which & 1)
        t->told.w = random_below(3) ? above(MAX_SIDE, t->told.w) : 0;
    if (which & 2)
        t->told.h = random_below(3) ? above(MAX_SIDE, t->told.h) : 0;
    if (has_room(t->told.w, t->told.h) && random_below(4)) {
        t->made_for.w = t->told.w;
        t->made_for.h = t->told.h;
    }
}

static void spoil_small(struct trial *t, uint32_t least)
{
    uint32_t which = 1 + random_below(3);
    if (which & 1)
        t->told.w = t->made_for.w = random_below(2) ? least - 1 : 1 + random_below(least - 1);
    if (which & 2)
        t->told.h = t->made_for.h = random_below(2) ? least - 1 : 1 + random_below(least - 1);
}

static void spoil_frames(struct trial *t)
{
    t->told.n = random_below(3) ? above(MAX_FRAMES, t->told.n) : 0;
    if (t->told.n <= MAX_FRAMES + 2)
        t->made_for.n = t->told.n;
}

uint32_t bad_percentile(void)
{
    static const uint32_t special[] = { 0, 1, 16, 18, 49, 51, 82, 84, 99, 100, 255, 256 + 50, 65536 + 17, 0x80000000 + 83, UINT32_MAX };
    uint32_t value = random_below(2) ? random_below(101) : PICK(special);
    return value == 17 || value == 50 || value == 83 ? value + 256 : value;
}

/* In this order, because a later number may depend on an earlier one. */
void spoil_numbers(struct trial *t, const struct call *call)
{
    if (t->want[4])
        spoil_small(t, least_side(call, t->told.s));
    if (t->want[3])
        t->told.s = above(MAX_HALVINGS, t->told.s);
    if (t->want[5])
        t->told.tolerance = above(MAX_TOLERANCE, t->told.tolerance);
    if (t->want[15])
        t->told.band = bad_band(t->told.band);
    if (t->want[6])
        spoil_frames(t);
    if (t->want[7])
        t->told.r = t->told.n > 0 ? above(t->told.n - 1, t->told.r) : 0;
    if (t->want[8])
        t->told.percentile = bad_percentile();
    if (t->want[14])
        t->told.y = above(t->told.h - 1, t->told.y);
    if (t->want[2])
        spoil_sizes(t);
}

void choose_numbers(struct trial *t, const struct call *call, const struct shape *large)
{
    choose_good(&t->told, call);
    if (large)
        take_shape(&t->told, large, least_side(call, large->s));
    choose_dependent(&t->told);
    t->made_for = t->told;
    spoil_numbers(t, call);
}
