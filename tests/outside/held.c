#include "held.h"

#include "../scenes.h"
#include "contents.h"

enum { PAIRS = 6 };

/* The place after the last number in use. */
static int used_numbers(uint32_t frames)
{
    return PAIRS + 2 * (frames > 0 ? (int)frames - 1 : 0);
}

void scribble(int32_t *held, uint32_t frames)
{
    int used = used_numbers(frames);
    random_fill((uint8_t *)(held + used), (size_t)(HELD_NUMBERS - used) * sizeof *held);
}

/* ---- Good numbers ---- */

static int32_t choose_pair_offset(uint32_t s)
{
    int32_t most = (2 << s) - 1;
    const int32_t ends[] = { most, -most };
    return random_below(4) ? random_between(-most, most) : ends[random_below(2)];
}

uint8_t *make_held(const struct numbers *n, uint32_t frames, bool damaged)
{
    int32_t *held = memory(HELD_NUMBERS * sizeof *held);
    const uint32_t settings[PAIRS] = { n->w, n->h, n->s, n->tolerance, n->percentile, frames };
    for (int i = 0; i < PAIRS; i++)
        held[i] = (int32_t)settings[i];
    for (int i = PAIRS; i < used_numbers(frames); i++)
        held[i] = choose_pair_offset(n->s);
    scribble(held, frames);
    if (damaged)
        damage(held, n, frames);
    return (uint8_t *)held;
}

/* ---- Damaged ones ---- */

/* Beyond the limits, or too short for s. */
static uint32_t bad_side(uint32_t side, uint32_t s)
{
    uint32_t least = 4u << s;
    const uint32_t small[] = { 0, least - 1, least - 1, 1 + random_below(least - 1) };
    return random_below(2) ? above(MAX_SIDE, side) : small[random_below(4)];
}

/* Above the limit, or one halving too many for the shorter side. */
static uint32_t bad_halvings(const struct numbers *n)
{
    uint32_t side = n->w < n->h ? n->w : n->h, s = n->s;
    while (s < MAX_HALVINGS && side >= 4u << s)
        s++;
    return side < 4u << s && random_below(2) ? s : above(MAX_HALVINGS, n->s);
}

/* One beyond the limit, twice as far, or as far as it goes. */
static int32_t far_pair_offset(uint32_t s)
{
    int32_t far = 2 << s;
    const int32_t offsets[] = { far, -far, far, -far, 2 * far - 1, 65536, INT32_MAX, INT32_MIN, INT32_MIN + 1 };
    return offsets[random_below(9)];
}

void damage(int32_t *held, const struct numbers *n, uint32_t frames)
{
    uint32_t place = random_below(frames > 1 ? 2 * PAIRS : PAIRS);
    const uint32_t bad[PAIRS] = { bad_side(n->w, n->s),           bad_side(n->h, n->s), bad_halvings(n),
                                  above(MAX_TOLERANCE, n->tolerance), bad_percentile(),     above(MAX_FRAMES, frames) };
    if (place < PAIRS)
        held[place] = held[place] > 0 && random_below(4) == 0 ? -held[place] : (int32_t)bad[place];
    else
        held[PAIRS + random_below(2 * (frames - 1))] = far_pair_offset(n->s);
}
