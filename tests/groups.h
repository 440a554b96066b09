/* The groups of test vectors, and what they share. */
#ifndef GROUPS_H
#define GROUPS_H

#include "scenes.h"
#include "vectors.h"

#define COUNT_OF(array) ((int)(sizeof(array) / sizeof((array)[0])))

/* Each adds its groups to the file in the making. */
void frame_groups(uint64_t seed);
void bitmap_groups(uint64_t seed);
void pair_groups(uint64_t seed);
void series_groups(uint64_t seed);
void quadrant_groups(uint64_t seed);
void live_groups(uint64_t seed);
void p6_groups(uint64_t seed);
void view_groups(uint64_t seed);
void bracket_groups(uint64_t seed);

/* Random inputs that many records share: any bytes, bytes below 4 (many ties), words. */
enum { NOISE_BYTES = 16384, NOISE_WORDS = 1024 };
extern uint8_t noise[NOISE_BYTES], ties[NOISE_BYTES];
extern uint64_t noise_words[NOISE_WORDS];
void make_noise(uint64_t seed);
/* Puts the bytes among them into the file's pool, for records that take parts anywhere. */
void keep_noise(void);

/* A way to make a refusal number apply: to sizes and settings, or, after these have given the lengths, to slices. */
struct breaker {
    uint32_t number;
    bool after;
    void (*apply)(struct vector *);
};

/* Every subset of the breakers, each some times: refusals in every order. They stand in the order in which the call tests them: the
 * first number of a subset must be the reference's answer. */
void add_subsets(struct vector good, const struct breaker *breakers, int count, int rounds);

/* Breakers that several calls share. */
void break_size(struct vector *v);
void break_halvings(struct vector *v);
void break_tolerance(struct vector *v);
void break_band(struct vector *v);
void break_percentile(struct vector *v);
void break_input(struct vector *v);
void break_output(struct vector *v);
void break_memory(struct vector *v);

/* A lent length that is one short, just enough, or longer by an excess. */
enum fit { SHORT, FITTING, LONGER, FITS };
size_t length_of(enum fit fit, size_t needed, size_t excess);

extern const uint32_t all_percentiles[3];

/* One of these numbers, at random. */
uint32_t one_of(const uint32_t *numbers, int count);

/* n frames of one scene, each moved and exposed otherwise, one raster after another, and a byte more. */
uint8_t *bracket_of(uint32_t w, uint32_t h, uint32_t n, int32_t reach);

/* Moves around a side: none, one, a word, the whole side, the extremes of 32 bits. */
enum { MOVES = 21 };
int32_t side_move(uint32_t side, int which);

/* Pixels that are not left out: all, none, or one edge, which shows where its frame was moved. */
enum kept { KEPT_ALL, KEPT_NONE, KEPT_LEFT, KEPT_RIGHT, KEPT_TOP, KEPT_BOTTOM, KEPT_KINDS };
bool keeps(enum kept kind, uint32_t w, uint32_t h, uint32_t x, uint32_t y);
/* How many are compared at (dx,dy) where the first frame, or the second, keeps these and the other one all. */
uint32_t compared_at(enum kept kind, bool second, uint32_t w, uint32_t h, int64_t dx, int64_t dy);

/* Ends the run when something that must hold does not. */
void must(bool holds, const char *what);

#endif
