/* One trial: both sides are asked, and all that they answer, write and leave alone is compared. */
#include "compare.h"

#include "../scenes.h"
#include "contents.h"
#include "fences.h"

#include <inttypes.h>
#include <stdio.h>
#include <stdlib.h>
#include <string.h>

static uint64_t bytes_compared;

const struct library library = {
    mtb_grey, mtb_halve, mtb_threshold, mtb_bitmaps, mtb_shift, mtb_total, mtb_difference, mtb_pair, mtb_series, mtb_pair_ward,
    mtb_series_ward, mtb_pair_band, mtb_series_band, mtb_quadrants, mtb_live_start, mtb_live_add, mtb_live_drop, mtb_live_offsets,
    mtb_p6_size, mtb_p6_raster, mtb_p6_write, mtb_common_area, mtb_moved, mtb_blink_row, mtb_grey_needed, mtb_words_needed,
};

static const struct library reference = {
    ref_grey, ref_halve, ref_threshold, ref_bitmaps, ref_shift, ref_total, ref_difference, ref_pair, ref_series, ref_pair_ward,
    ref_series_ward, ref_pair_band, ref_series_band, ref_quadrants, ref_live_start, ref_live_add, ref_live_drop, ref_live_offsets,
    ref_p6_size, ref_p6_raster, ref_p6_write, ref_common_area, ref_moved, ref_blink_row, ref_grey_needed, ref_words_needed,
};

/* Takes the band for a tolerance. */
static const struct library tolerance = { .pair_band = mtb_pair, .series_band = mtb_series };

static const struct {
    const struct library *asked;
    const char *name;
} others[] = {
    [REFERENCE] = { &reference, "the reference" },
    [TOLERANCE_0] = { &tolerance, "the tolerance 0" },
    [RE_EXPOSED] = { &library, "the re-exposed frames" },
};

/* ---- The two sides ---- */

struct sides {
    uint32_t ours, theirs;
    struct lent library[MAX_SLICES], other[MAX_SLICES];
};

static size_t slice_bytes(const struct slice *slice)
{
    return slice->length * slice->element;
}

static bool is_const(const struct slice *slice)
{
    return slice->role == INPUT || slice->role == GIVEN;
}

/* The library gets a fenced copy; the other side reads the inputs themselves and writes to a heap block of just the told size. */
static void lend(const struct trial *t, int i, struct sides *sides)
{
    const struct slice *slice = &t->slice[i];
    if (slice->same_as >= 0) {
        sides->library[i] = sides->library[slice->same_as];
        sides->other[i] = sides->other[slice->same_as];
        return;
    }
    size_t bytes = slice_bytes(slice), told = slice->length + slice->unseen;
    uint8_t *fenced = slice->unseen ? fences_lend_wide(i, bytes) : fences_lend(i, bytes, random_below(2));
    memcpy(fenced, slice->before, bytes);
    sides->library[i] = (struct lent){ fenced, told };
    sides->other[i] = (struct lent){ slice->exposed ? slice->exposed : slice->before, told };
    if (!is_const(slice)) {
        sides->other[i].at = memory(bytes);
        memcpy(sides->other[i].at, slice->before, bytes);
    }
}

static void give_back(const struct trial *t, const struct sides *sides)
{
    for (int i = 0; i < t->slices; i++) {
        if (!is_const(&t->slice[i]))
            free(sides->other[i].at);
        if (t->slice[i].same_as < 0)
            fences_release(i);
    }
}

/* ---- Comparing ---- */

/* The first byte, from `begin` on, where the two differ; `bytes` where none does. */
static size_t first_unequal(const uint8_t *one, const uint8_t *other, size_t begin, size_t bytes)
{
    bytes_compared += bytes - begin;
    if (memcmp(one + begin, other + begin, bytes - begin) == 0)
        return bytes;
    size_t at = begin;
    while (one[at] == other[at])
        at++;
    return at;
}

/* Writes what is wrong with byte `at` and tells that there is something. */
static bool mismatch_at(char *mismatch, const struct slice *slice, const char *what, const uint8_t *one, const uint8_t *other, size_t at)
{
    snprintf(mismatch, MISMATCH_ROOM, "%s %s: byte %zu of element %zu is %u, not %u", slice->name, what, at % slice->element,
             at / slice->element, one[at], other[at]);
    return true;
}

static bool changed(char *mismatch, const struct slice *slice, const uint8_t *now, size_t begin, const char *what)
{
    size_t bytes = slice_bytes(slice), at = first_unequal(now, slice->before, begin, bytes);
    return at < bytes && mismatch_at(mismatch, slice, what, now, slice->before, at);
}

/* An output after acceptance: whole as the other side's, and its excess as before. */
static bool wrong_output(char *mismatch, const struct slice *slice, const char *other, const uint8_t *ours, const uint8_t *theirs)
{
    size_t bytes = slice_bytes(slice), at = first_unequal(ours, theirs, 0, bytes);
    char what[MISMATCH_ROOM / 2];
    snprintf(what, sizeof what, "is not that of %s", other);
    if (at < bytes)
        return mismatch_at(mismatch, slice, what, ours, theirs, at);
    return changed(mismatch, slice, ours, slice->needed * slice->element, "was changed past what is needed");
}

static bool wrong_slice(char *mismatch, const struct trial *t, int i, const struct sides *sides)
{
    const struct slice *slice = &t->slice[i];
    const uint8_t *ours = sides->library[i].at, *theirs = sides->other[i].at;
    if (is_const(slice))
        return changed(mismatch, slice, ours, 0, "is an input and was changed");
    if (sides->ours != 0)
        return changed(mismatch, slice, ours, 0, "was changed by a refused call") ||
               changed(mismatch, slice, theirs, 0, "was changed by the other side, which refused");
    return slice->role != WORK && wrong_output(mismatch, slice, others[t->against].name, ours, theirs);
}

static bool wrong_answer(char *mismatch, const struct trial *t, const struct sides *sides)
{
    if (sides->ours != sides->theirs)
        snprintf(mismatch, MISMATCH_ROOM, "answers %" PRIu32 ", not the %" PRIu32 " of %s", sides->ours, sides->theirs,
                 others[t->against].name);
    else if (t->expected != UNKNOWN && t->expected != sides->ours)
        snprintf(mismatch, MISMATCH_ROOM, "both answer %" PRIu32 ", but %" PRIu32 " was wanted", sides->ours, t->expected);
    else
        return false;
    return true;
}

static bool guards_written(char *mismatch, const struct trial *t)
{
    for (int i = 0; i < t->slices; i++)
        if (t->slice[i].same_as < 0 && !fences_intact(i)) {
            snprintf(mismatch, MISMATCH_ROOM, "guard bytes beside %s were written", t->slice[i].name);
            return true;
        }
    return false;
}

static bool differs(char *mismatch, const struct trial *t, const struct sides *sides)
{
    if (wrong_answer(mismatch, t, sides) || guards_written(mismatch, t))
        return true;
    for (int i = 0; i < t->slices; i++)
        if (t->slice[i].same_as < 0 && wrong_slice(mismatch, t, i, sides))
            return true;
    return false;
}

/* For a session's next call. */
static void hand_on(const struct trial *t, const struct sides *sides)
{
    for (int i = 0; i < t->slices; i++)
        if (t->slice[i].after)
            memcpy(t->slice[i].after, sides->library[i].at, slice_bytes(&t->slice[i]));
}

struct comparison compare(const struct call *call, const struct trial *t)
{
    struct sides sides;
    struct comparison result;
    bytes_compared = 0;
    for (int i = 0; i < t->slices; i++)
        lend(t, i, &sides);
    sides.ours = call->ask(&library, &t->told, sides.library);
    sides.theirs = call->ask(others[t->against].asked, &t->told, sides.other);
    result.differs = differs(result.mismatch, t, &sides);
    result.answer = sides.ours;
    result.bytes = bytes_compared;
    hand_on(t, &sides);
    give_back(t, &sides);
    return result;
}
