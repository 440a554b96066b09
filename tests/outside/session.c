#include "session.h"

#include "../scenes.h"
#include "contents.h"

#include <inttypes.h>
#include <stdio.h>
#include <stdlib.h>
#include <string.h>

enum { FRAMES = 24, LEAST_CALLS = 12, MORE_CALLS = 50, LEAST_SIDE = 4, MORE_SIDE = 18, MOST_SIDE = 64, MOST_S = 2 };

/* The slices of every call on a live bracket; of an add; of what is told. */
enum { NUMBERS, NEWEST, RASTER, OFFSETS = RASTER, TOLD };

/* ---- Begin and end ---- */

static size_t raster_bytes(const struct session *session)
{
    return 3 * session->area;
}

static void choose_settings(const struct session *session, struct numbers *n)
{
    static const uint32_t percentiles[] = { 17, 50, 83 };
    n->tolerance = session->re_exposed ? 0 : choose_tolerance() / (1 + random_below(8));
    n->percentile = percentiles[random_below(3)];
}

/* Another shape of as many pixels, or the same, with as many halvings as it allows or less. */
static void choose_shape(const struct session *session, struct numbers *n)
{
    uint32_t area = (uint32_t)session->area, most = 0;
    do
        n->w = LEAST_SIDE + random_below(MOST_SIDE);
    while (area % n->w != 0 || area / n->w < LEAST_SIDE);
    n->h = area / n->w;
    while (most < MOST_S && n->w >= 8u << most && n->h >= 8u << most)
        most++;
    n->s = random_below(most + 1);
}

void begin_session(struct session *session, bool alone)
{
    uint32_t w = LEAST_SIDE + random_below(MORE_SIDE), h = LEAST_SIDE + random_below(MORE_SIDE);
    memset(session, 0, sizeof *session);
    session->calls = LEAST_CALLS + (int)random_below(MORE_CALLS);
    session->alone = alone;
    session->re_exposed = alone && random_below(2);
    session->area = (size_t)w * h;
    session->rasters = make_rasters(w, h, FRAMES);
    if (session->re_exposed)
        session->exposed = re_exposed(w, h, session->rasters, FRAMES * raster_bytes(session));
    for (int m = 0; m < MEMORIES; m++) {
        session->memory[m].newest = memory(session->area);
        random_fill(session->memory[m].newest, session->area);
        random_fill((uint8_t *)session->memory[m].numbers, sizeof session->memory[m].numbers);
    }
    session->settings = (struct numbers){ .w = w, .h = h, .percentile = 50, .n = 1 };
}

void end_session(struct session *session)
{
    free(session->rasters);
    free(session->exposed);
    for (int m = 0; m < MEMORIES; m++)
        free(session->memory[m].newest);
}

/* ---- The next call ---- */

/* More adds than drops, so that the bracket fills; a start now and then. */
static enum live choose_call(void)
{
    static const enum live often[] = { LIVE_ADD,  LIVE_ADD,  LIVE_ADD,     LIVE_ADD,    LIVE_ADD,
                                       LIVE_DROP, LIVE_DROP, LIVE_OFFSETS, LIVE_OFFSETS };
    return random_below(24) ? often[random_below(9)] : LIVE_START;
}

/* What a start tells; the memory is as long as ever. */
static void choose_start(const struct session *session, struct trial *t)
{
    choose_shape(session, &t->told);
    choose_settings(session, &t->told);
    t->made_for = t->told;
    spoil_numbers(t, live_call(LIVE_START));
    t->made_for.w = session->settings.w;
    t->made_for.h = session->settings.h;
}

const struct call *make_step(struct session *session, bool first, struct trial *t)
{
    bool starts = first && random_below(4);
    const struct call *call = live_call(starts ? LIVE_START : choose_call());
    memset(t, 0, sizeof *t);
    t->told = t->made_for = session->settings;
    if (!starts && random_below(5) == 0)
        want_refusals(t, call);
    if (call == live_call(LIVE_START))
        choose_start(session, t);
    session->next = random_below(FRAMES);
    session->handed = (struct held){ session->memory[OWN].numbers, session->memory[OWN].newest,
                                     session->rasters + session->next * raster_bytes(session) };
    t->held = &session->handed;
    t->expected = UNKNOWN;
    make_slices(t, call);
    for (int i = 0; i < t->slices; i++)
        t->slice[i].after = memory(t->slice[i].length * t->slice[i].element);
    return call;
}

/* ---- After the call ---- */

static void take_memory(struct session *session, int m, const void *numbers, size_t numbers_len, const void *newest,
                        size_t newest_len)
{
    size_t count = numbers_len < HELD_NUMBERS ? numbers_len : HELD_NUMBERS;
    size_t bytes = newest_len < session->area ? newest_len : session->area;
    memcpy(session->memory[m].numbers, numbers, count * sizeof(int32_t));
    memcpy(session->memory[m].newest, newest, bytes);
}

static void take_accepted(struct session *session, const struct call *call, const struct trial *t)
{
    if (call == live_call(LIVE_START)) {
        session->settings = t->told;
        session->sound = true;
        session->held = 0;
    } else if (call == live_call(LIVE_ADD) && session->held < MAX_FRAMES) {
        session->frames[session->held++] = session->next;
    } else if (call == live_call(LIVE_DROP) && session->held > 0) {
        session->held--;
        memmove(session->frames, session->frames + 1, session->held * sizeof *session->frames);
    }
}

/* Writes anything where nothing is in use. */
static void scribble_free(struct session *session)
{
    for (int m = 0; m < MEMORIES; m++) {
        scribble(session->memory[m].numbers, session->held);
        if (session->held == 0)
            random_fill(session->memory[m].newest, session->area);
    }
}

/* Breaks a limit, or puts something else within the limits. */
static void damage_memory(struct session *session)
{
    int32_t *numbers = session->memory[OWN].numbers;
    session->sound = false;
    switch (random_below(4)) {
    case 0:
        damage(numbers, &session->settings, session->held);
        break;
    case 1:
        numbers[HELD_FRAMES] = random_between(0, MAX_FRAMES);
        break;
    case 2:
        numbers[random_below(HELD_NUMBERS)] = random_between(-3, 3);
        break;
    default:
        random_fill(session->memory[OWN].newest, session->area);
    }
}

void take_step(struct session *session, const struct call *call, const struct trial *t, uint32_t answer)
{
    take_memory(session, OWN, t->slice[NUMBERS].after, t->slice[NUMBERS].length, t->slice[NEWEST].after, t->slice[NEWEST].length);
    if (answer == 0)
        take_accepted(session, call, t);
    if (session->sound && random_below(3) == 0)
        scribble_free(session);
    if (session->sound && random_below(24) == 0)
        damage_memory(session);
}

/* ---- Several memories ---- */

static const char *const memory_names[MEMORIES] = { "the session", "other unused numbers", "the re-exposed frames" };

/* What one of the memories is answered, and its slices after the call. */
struct run {
    uint32_t answer;
    struct lent slice[MAX_SLICES];
};

/* Puts so many bytes into a slice, or as many as it has. */
static void overlay(const struct trial *t, int i, struct run *run, const void *contents, size_t bytes)
{
    size_t told = t->slice[i].length * t->slice[i].element;
    memcpy(run->slice[i].at, contents, bytes < told ? bytes : told);
}

/* What the session's own memory is lent, but for what another has otherwise. */
static struct run run_on(const struct session *session, int m, const struct call *call, const struct trial *t)
{
    struct run run = { 0 };
    for (int i = 0; i < t->slices; i++) {
        size_t told = t->slice[i].length * t->slice[i].element;
        run.slice[i] = (struct lent){ memory(told), t->slice[i].length };
        memcpy(run.slice[i].at, t->slice[i].before, told);
    }
    if (m != OWN) {
        overlay(t, NUMBERS, &run, session->memory[m].numbers, sizeof session->memory[m].numbers);
        overlay(t, NEWEST, &run, session->memory[m].newest, session->area);
    }
    if (m == EXPOSED_TWIN && call == live_call(LIVE_ADD))
        overlay(t, RASTER, &run, session->exposed + session->next * raster_bytes(session), raster_bytes(session));
    run.answer = call->ask(&library, &t->told, run.slice);
    return run;
}

/* Whether two runs left the same in a slice; how many bytes that was is added. */
static bool same_slice(const struct trial *t, int i, const struct run *one, const struct run *other, uint64_t *bytes)
{
    size_t count = t->slice[i].length * t->slice[i].element;
    *bytes += count;
    return memcmp(one->slice[i].at, other->slice[i].at, count) == 0;
}

static bool holds_frames(const struct run *run)
{
    return run->slice[NUMBERS].length > HELD_FRAMES && ((const int32_t *)run->slice[NUMBERS].at)[HELD_FRAMES] > 0;
}

/* Whether two accepted calls have to leave the same in a slice: the numbers where they are written, the newest grey where frames are
 * held, and all that is told. */
static bool compares(const struct trial *t, int m, int i, const struct run *run)
{
    enum role role = t->slice[i].role;
    if (i == NEWEST)
        return role == HELD && m == TWIN && holds_frames(run);
    return role == HELD || role == OUTPUT || role == RESULT;
}

static bool run_differs(const struct trial *t, int m, const struct run *one, const struct run *other, struct comparison *result)
{
    if (one->answer != other->answer) {
        snprintf(result->mismatch, MISMATCH_ROOM, "answers %" PRIu32 ", but %" PRIu32 " with %s", one->answer, other->answer,
                 memory_names[m]);
        return true;
    }
    for (int i = 0; one->answer == 0 && i < t->slices; i++)
        if (compares(t, m, i, one) && !same_slice(t, i, one, other, &result->bytes)) {
            snprintf(result->mismatch, MISMATCH_ROOM, "%s is not that with %s", t->slice[i].name, memory_names[m]);
            return true;
        }
    return false;
}

static void keep_run(struct session *session, int m, const struct trial *t, struct run *run)
{
    for (int i = 0; m == OWN && i < t->slices; i++)
        memcpy(t->slice[i].after, run->slice[i].at, t->slice[i].length * t->slice[i].element);
    take_memory(session, m, run->slice[NUMBERS].at, run->slice[NUMBERS].length, run->slice[NEWEST].at, run->slice[NEWEST].length);
    for (int i = 0; i < t->slices; i++)
        free(run->slice[i].at);
}

/* ---- The series call ---- */

/* What mtb_series tells of the frames held, at least one. */
static uint32_t series_of(const struct session *session, int32_t offsets[2 * MAX_FRAMES])
{
    enum { COUNTS = 9 * (MOST_S + 1) * (MAX_FRAMES - 1) };
    static uint32_t counts[COUNTS], compared[COUNTS];
    const struct numbers *n = &session->settings;
    uint32_t percentiles[MAX_FRAMES];
    size_t one = raster_bytes(session);
    size_t grey_len = mtb_grey_needed(n->w, n->h, n->s), words_len = mtb_words_needed(n->w, n->h, n->s);
    uint8_t *rasters = memory(session->held * one), *grey = memory(grey_len);
    uint64_t *words = memory(words_len * sizeof *words);
    for (uint32_t k = 0; k < session->held; k++) {
        memcpy(rasters + k * one, session->rasters + session->frames[k] * one, one);
        percentiles[k] = n->percentile;
    }
    uint32_t number = mtb_series(n->w, n->h, n->s, n->tolerance, session->held, 0, percentiles, session->held - 1, rasters,
                                 session->held * one, offsets, 2 * MAX_FRAMES, counts, COUNTS, compared, COUNTS, grey, grey_len, words,
                                 words_len);
    free(rasters);
    free(grey);
    free(words);
    return number;
}

static bool tells_otherwise(const struct session *session, const struct trial *t, struct comparison *result)
{
    int32_t offsets[2 * MAX_FRAMES];
    uint32_t told = *(const uint32_t *)t->slice[TOLD].after;
    size_t bytes = 2 * (size_t)session->held * sizeof *offsets;
    result->bytes += bytes;
    if (told != session->held) {
        snprintf(result->mismatch, MISMATCH_ROOM, "tells of %" PRIu32 " frames, and %" PRIu32 " are held", told, session->held);
        return true;
    }
    snprintf(result->mismatch, MISMATCH_ROOM, "tells other offsets than mtb_series");
    return told > 0 && (series_of(session, offsets) != 0 || memcmp(t->slice[OFFSETS].after, offsets, bytes) != 0);
}

/* Though nothing is wrong. */
static bool refuses(const struct trial *t, struct comparison *result)
{
    static const bool none[WANTS];
    snprintf(result->mismatch, MISMATCH_ROOM, "refuses what its own calls have left, by %" PRIu32, result->answer);
    return memcmp(t->want, none, sizeof none) == 0;
}

/* ---- The library alone ---- */

/* How many memories agree in what is used, so that they have to be answered alike: after damage there is but one, until a start, which
 * reads none. */
static int memories_alike(const struct session *session, const struct call *call)
{
    if (!session->sound && call != live_call(LIVE_START))
        return 1;
    return session->re_exposed ? MEMORIES : EXPOSED_TWIN;
}

struct comparison compare_alone(struct session *session, const struct call *call, const struct trial *t)
{
    struct comparison result = { 0 };
    struct run runs[MEMORIES];
    int memories = memories_alike(session, call);
    for (int m = 0; m < memories; m++)
        runs[m] = run_on(session, m, call, t);
    for (int m = TWIN; m < memories && !result.differs; m++)
        result.differs = run_differs(t, m, &runs[OWN], &runs[m], &result);
    result.answer = runs[OWN].answer;
    for (int m = 0; m < memories; m++)
        keep_run(session, m, t, &runs[m]);
    if (!result.differs && session->sound && call == live_call(LIVE_OFFSETS))
        result.differs = result.answer == 0 ? tells_otherwise(session, t, &result) : refuses(t, &result);
    return result;
}
