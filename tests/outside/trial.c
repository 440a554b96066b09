/* What is wanted of a trial, and the lengths and contents of its slices. */
#include "trial.h"

#include "../scenes.h"
#include "contents.h"

#include <stdlib.h>
#include <string.h>

/* ---- Which refusals are to apply ---- */

static int refusals_of(const struct call *call)
{
    return (int)strlen((const char *)call->refusals);
}

/* That which the call tests first. */
static uint32_t first_wanted(const struct trial *t, const struct call *call)
{
    for (const uint8_t *refusal = call->refusals; *refusal; refusal++)
        if (t->want[*refusal])
            return *refusal == HELD_LENGTH ? 9 : *refusal;
    return 0;
}

void want_refusals(struct trial *t, const struct call *call)
{
    int all = refusals_of(call);
    t->want[call->refusals[random_below((uint32_t)all)]] = true;
    if (random_below(2))
        return;
    for (int i = 0; i < all; i++)
        if (random_below(3) == 0)
            t->want[call->refusals[i]] = true;
}

/* Two refusals of all that the call tests, those of this number. */
static void want_two(struct trial *t, const struct call *call, uint64_t number)
{
    int all = refusals_of(call);
    for (int one = 0; one < all; one++)
        for (int other = one + 1; other < all; other++)
            if (number-- == 0)
                t->want[call->refusals[one]] = t->want[call->refusals[other]] = true;
}

uint64_t refusal_pairs(const struct call *call)
{
    uint64_t all = (uint64_t)refusals_of(call);
    return all * (all - 1) / 2;
}

/* ---- Lengths ---- */

struct slice *add_slice(struct trial *t, enum role role, const char *name, size_t element, size_t needed)
{
    struct slice *slice = &t->slice[t->slices++];
    *slice = (struct slice){ .name = name, .role = role, .element = element, .needed = needed, .length = needed, .same_as = -1 };
    return slice;
}

static size_t short_length(size_t needed)
{
    const size_t lengths[] = { 0, needed - 1, needed - 1, needed / 2, random_bits() % needed };
    return lengths[random_below(5)];
}

static size_t wrong_length(size_t needed)
{
    const size_t longer[] = { needed + 1, needed + 1 + random_below(70), 2 * needed + 1 };
    return needed > 0 && random_below(2) ? short_length(needed) : longer[random_below(3)];
}

/* An output or work memory may be longer than needed. */
static size_t ample_length(size_t needed)
{
    return random_below(3) ? needed : needed + 1 + random_below(random_below(8) ? 9 : 2000);
}

/* Whether the length has to be just what is needed. */
static bool is_exact(const struct slice *slice)
{
    return slice->role == INPUT || slice->role == HELD;
}

static void spoil_length(struct slice *slice)
{
    slice->length = is_exact(slice) ? wrong_length(slice->needed) : short_length(slice->needed);
}

/* The refusal that looks at the slice's length. */
static uint32_t length_refusal(const struct slice *slice)
{
    if (is_exact(slice))
        return slice->first ? HELD_LENGTH : 9;
    return slice->role == OUTPUT ? 10 : slice->role == WORK ? 11 : 0;
}

static bool can_spoil(const struct slice *slice, uint32_t refusal)
{
    return length_refusal(slice) == refusal && (is_exact(slice) || slice->needed > 0);
}

/* Spoils the length of one slice that this refusal looks at, and perhaps of others. */
static void spoil_lengths(struct trial *t, uint32_t refusal)
{
    int able = 0;
    for (int i = 0; i < t->slices; i++)
        able += can_spoil(&t->slice[i], refusal);
    int chosen = able ? (int)random_below((uint32_t)able) : 0;
    for (int i = 0; i < t->slices; i++)
        if (can_spoil(&t->slice[i], refusal) && (chosen-- == 0 || random_below(3) == 0))
            spoil_length(&t->slice[i]);
}

static void choose_lengths(struct trial *t)
{
    static const uint32_t refusals[] = { 9, 10, 11, HELD_LENGTH };
    for (int i = 0; i < t->slices; i++)
        if (t->slice[i].role == OUTPUT || t->slice[i].role == WORK)
            t->slice[i].length = ample_length(t->slice[i].needed);
    for (size_t i = 0; i < sizeof refusals / sizeof *refusals; i++)
        if (t->want[refusals[i]])
            spoil_lengths(t, refusals[i]);
}

/* A length that 32 bits would cut off to a good one of an input, to a short one of others. */
static void widen(struct trial *t, const struct call *call, struct slice *slice)
{
    slice->unseen = (size_t)1 << 32;
    if (is_exact(slice) || slice->role == GIVEN)
        t->want[slice->role == GIVEN && tests_refusal(call, 8) ? 8 : 9] = true;
    else if (slice->needed > 0)
        slice->unseen -= 1 + random_below((uint32_t)slice->needed);
}

/* ---- Contents ---- */

/* Inputs may be the same: now and then a later one is lent the memory of an earlier one. */
static void share_inputs(struct trial *t)
{
    for (int i = 1; i < t->slices; i++) {
        const struct slice *earlier = &t->slice[random_below((uint32_t)i)];
        if (t->slice[i].role == INPUT && earlier->role == INPUT && earlier->same_as < 0 && earlier->element == t->slice[i].element &&
            earlier->length == t->slice[i].length && random_below(8) == 0)
            t->slice[i].same_as = (int)(earlier - t->slice);
    }
}

/* The made contents, cut off or followed by anything; a heap block of just the told length, so that the sanitizer sees each step
 * of the reference past its end. */
static void fill_slice(struct slice *slice)
{
    size_t told = slice->length * slice->element, made = slice->made ? slice->needed * slice->element : 0;
    size_t kept = made < told ? made : told;
    slice->before = memory(told);
    if (kept > 0)
        memcpy(slice->before, slice->made, kept);
    random_fill(slice->before + kept, told - kept);
    free(slice->made);
    slice->made = NULL;
}

static void fill_slices(struct trial *t)
{
    for (int i = 0; i < t->slices; i++)
        fill_slice(&t->slice[i]);
}

void make_slices(struct trial *t, const struct call *call)
{
    call->slices(t);
    choose_lengths(t);
    share_inputs(t);
    fill_slices(t);
}

/* What is wanted is chosen. */
static void make_wanted(struct trial *t, const struct call *call, const struct shape *large)
{
    choose_numbers(t, call, large);
    make_slices(t, call);
    t->expected = call->plan == WANTED ? first_wanted(t, call) : UNKNOWN;
}

void make_trial(struct trial *t, const struct call *call, const struct shape *large, bool refused)
{
    memset(t, 0, sizeof *t);
    t->correct_file = large != NULL;
    if (refused && call->plan != CHANCE)
        want_refusals(t, call);
    make_wanted(t, call, large);
}

void make_order_trial(struct trial *t, const struct call *call, uint64_t pair)
{
    memset(t, 0, sizeof *t);
    want_two(t, call, pair);
    make_wanted(t, call, NULL);
}

void make_zero_trial(struct trial *t, const struct call *call, bool refused)
{
    make_trial(t, call, NULL, refused);
    t->against = TOLERANCE_0;
    t->told.band = 0;
    t->want[15] = false;
    t->expected = first_wanted(t, call);
}

/* Every input of a call with a band is made of rasters. */
void make_exposed_trial(struct trial *t, const struct call *call)
{
    make_trial(t, call, NULL, false);
    t->against = RE_EXPOSED;
    for (int i = 0; i < t->slices; i++)
        if (t->slice[i].role == INPUT)
            t->slice[i].exposed = re_exposed(t->told.w, t->told.h, t->slice[i].before, t->slice[i].length);
}

bool make_wide_trial(struct trial *t, const struct call *call, int slice)
{
    memset(t, 0, sizeof *t);
    t->correct_file = true;
    choose_numbers(t, call, NULL);
    call->slices(t);
    bool able = slice < t->slices && t->slice[slice].role != RESULT;
    if (able)
        widen(t, call, &t->slice[slice]);
    fill_slices(t);
    t->expected = first_wanted(t, call);
    return able;
}

void free_trial(struct trial *t)
{
    for (int i = 0; i < t->slices; i++) {
        free(t->slice[i].before);
        free(t->slice[i].exposed);
        free(t->slice[i].after);
    }
}
