/* What is aligned, and who aligns it. */
#ifndef CONTEST_H
#define CONTEST_H

#include <stddef.h>
#include <stdint.h>

#ifdef __cplusplus
extern "C" {
#endif

enum { MAX_FRAMES = 16, MAX_LEVELS = 9, CANDIDATES = 9 };

/* n rasters of w by h, one after another; a pair has n = 2. Pair j takes percentiles[j]. */
struct job {
    uint32_t w, h, s, tolerance, n;
    uint32_t percentiles[MAX_FRAMES];
    const uint8_t *rasters;
};

/* Buffers that are lent to every contestant: made and touched before any time is taken. */
struct memory {
    uint8_t *grey, *copy;
    uint64_t *words;
    size_t grey_len, words_len;
};

/* Offsets from the first frame, dx before dy, the counts and the compared numbers, as the series call writes them. */
struct answer {
    int32_t offsets[2 * MAX_FRAMES];
    uint32_t counts[CANDIDATES * MAX_LEVELS * MAX_FRAMES], compared[CANDIDATES * MAX_LEVELS * MAX_FRAMES];
};

typedef void aligner(const struct job *, const struct memory *, struct answer *);

/* What of a contestant's answer has to be the library's: more than nothing where it follows documents 01 and 02 and
 * Ward's order. */
enum agreement { NOTHING, OFFSETS_AND_COUNTS, ALL_NUMBERS };

struct contestant {
    const char *name;
    aligner *run;
    enum agreement agreement;
};

extern const struct contestant contestants[];
extern const size_t contestants_len;

/* OpenCV's AlignMTB, where it is installed; its version, and the instruction sets that it takes code for. */
aligner opencv_align;
const char *opencv_about(void);

#ifdef __cplusplus
}
#endif

#endif
