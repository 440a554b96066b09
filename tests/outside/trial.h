/* A trial: one call with all that it is given, made from random numbers, to be asked of the library and of the reference. */
#ifndef TRIAL_H
#define TRIAL_H

#include "mtb.h"
#include "reference.h"

#include <stdbool.h>
#include <stddef.h>
#include <stdint.h>

enum { MAX_SLICES = 8, REFUSALS = 17, MAX_SIDE = 4096, MAX_HALVINGS = 8, MAX_TOLERANCE = 64, MAX_BAND = 16, MAX_FRAMES = 16 };

/* Among the refusals that are to apply: 9 by the length of a live bracket's numbers, where it is tested before 16. */
enum { HELD_LENGTH = REFUSALS, WANTS };

#define UNKNOWN UINT32_MAX

/* Every number that some call takes. */
struct numbers {
    uint32_t w, h, s, tolerance, band, percentile, n, r, y;
    int32_t dx, dy;
    uint8_t threshold;
    bool second;
};

/* Of an input the length is tested by refusal 9, of a given one by none. A result is a number behind a pointer. What is held is read
 * and written, with its length tested as an input's. */
enum role { INPUT, GIVEN, OUTPUT, RESULT, WORK, HELD };

struct slice {
    const char *name;
    enum role role;
    size_t element; /* its bytes */
    size_t needed;  /* elements that an accepted call reads or writes */
    size_t length;  /* elements told, */
    size_t unseen;  /* and further ones told that are there but hold nothing of interest: more than 32 bits can tell */
    int same_as;    /* the earlier input that is lent here again, or -1 */
    bool first;     /* its length is tested before all else, by a 9 of its own */
    uint8_t *made;  /* contents of the needed elements; NULL where any will do */
    uint8_t *before; /* what the elements hold before the call */
    uint8_t *exposed; /* an input's frames re-exposed, for the other side; NULL where it gets the same */
    uint8_t *after;   /* where the library's final contents are put; NULL where nobody asks for them */
};

/* Which other side the library is compared with: the reference; itself, asked with the tolerance 0 in place of a band of 0; itself,
 * asked the same of re-exposed frames. */
enum against { REFERENCE, TOLERANCE_0, RE_EXPOSED };

struct trial {
    enum against against;
    struct numbers told;
    struct numbers made_for; /* the numbers that the buffers suit: those told, but not where these ask for too much memory */
    bool correct_file;       /* a P6 file is one that the writer makes */
    const struct held *held; /* a live bracket's memory; NULL where it is to be made */
    bool want[WANTS];        /* the refusals that are to apply */
    uint32_t expected;       /* the first of them in the call's order, 0 for none; or UNKNOWN */
    int slices;
    struct slice slice[MAX_SLICES];
};

/* A slice as one of the two gets it. */
struct lent {
    void *at;
    size_t length;
};

/* The two implementations, as tables of the same functions. */
struct library {
    __typeof__(mtb_grey) *grey;
    __typeof__(mtb_halve) *halve;
    __typeof__(mtb_threshold) *threshold;
    __typeof__(mtb_bitmaps) *bitmaps;
    __typeof__(mtb_shift) *shift;
    __typeof__(mtb_total) *total;
    __typeof__(mtb_difference) *difference;
    __typeof__(mtb_pair) *pair;
    __typeof__(mtb_series) *series;
    __typeof__(mtb_pair_ward) *pair_ward;
    __typeof__(mtb_series_ward) *series_ward;
    __typeof__(mtb_pair_band) *pair_band;
    __typeof__(mtb_series_band) *series_band;
    __typeof__(mtb_quadrants) *quadrants;
    __typeof__(mtb_live_start) *live_start;
    __typeof__(mtb_live_add) *live_add;
    __typeof__(mtb_live_drop) *live_drop;
    __typeof__(mtb_live_offsets) *live_offsets;
    __typeof__(mtb_p6_size) *p6_size;
    __typeof__(mtb_p6_raster) *p6_raster;
    __typeof__(mtb_p6_write) *p6_write;
    __typeof__(mtb_common_area) *common_area;
    __typeof__(mtb_moved) *moved;
    __typeof__(mtb_blink_row) *blink_row;
    __typeof__(mtb_grey_needed) *grey_needed;
    __typeof__(mtb_words_needed) *words_needed;
};

/* How a call's refusals come about: wanted, so that the answer is known before; wanted, of a call that answers no number; by chance. */
enum plan { WANTED, UNTOLD, CHANCE };

struct call {
    const char *name;
    enum plan plan;
    void (*slices)(struct trial *); /* adds the call's slices, in the order of its arguments */
    uint32_t (*ask)(const struct library *, const struct numbers *, const struct lent *);
    uint8_t refusals[12]; /* those that it tests, HELD_LENGTH among them, in this order; 0 after the last */
};

extern const struct call calls[];
extern const int call_count;

/* Whether refusal 4 looks at a quadrant's sides. */
bool quartered(const struct call *call);

/* The four calls of a live bracket. */
enum live { LIVE_START, LIVE_ADD, LIVE_DROP, LIVE_OFFSETS, LIVE_CALLS };
const struct call *live_call(enum live which);

/* A large trial's sizes; for the calls that align, s and n too. */
struct shape {
    uint32_t w, h, s, n;
};

bool tests_refusal(const struct call *call, uint32_t number);

/* numbers.c: numbers that none but the wanted refusals apply to; `large` is NULL for an ordinary trial. */
void choose_numbers(struct trial *trial, const struct call *call, const struct shape *large);
/* Numbers that are good but for those that make the wanted refusals apply. */
void spoil_numbers(struct trial *trial, const struct call *call);
uint32_t choose_tolerance(void);
/* A number above the limit, often one that is good again where its upper bits are cut off. */
uint32_t above(uint32_t limit, uint32_t good);
uint32_t bad_percentile(void);

/* trial.c */
/* One refusal, or several at once. */
void want_refusals(struct trial *trial, const struct call *call);
struct slice *add_slice(struct trial *trial, enum role role, const char *name, size_t element, size_t needed);
void make_trial(struct trial *trial, const struct call *call, const struct shape *large, bool refused);
/* The slices of a trial whose numbers and wanted refusals are chosen. */
void make_slices(struct trial *trial, const struct call *call);

/* Two refusals at once: which of all pairs that the call's make. */
uint64_t refusal_pairs(const struct call *call);
void make_order_trial(struct trial *trial, const struct call *call, uint64_t pair);

/* Trials of a call with a band against the library itself: with a band of 0; accepted ones with frames without colour. */
void make_zero_trial(struct trial *trial, const struct call *call, bool refused);
void make_exposed_trial(struct trial *trial, const struct call *call);

/* A trial with nothing special but one slice that is told longer than 32 bits can tell. False: there is no such slice. */
bool make_wide_trial(struct trial *trial, const struct call *call, int slice);
void free_trial(struct trial *trial);

#endif
