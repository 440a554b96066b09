#ifndef COMPARE_H
#define COMPARE_H

#include "trial.h"

enum { MISMATCH_ROOM = 200 };

struct comparison {
    bool differs;
    char mismatch[MISMATCH_ROOM]; /* how */
    uint32_t answer;              /* the library's */
    uint64_t bytes;               /* compared in buffers */
};

struct comparison compare(const struct call *call, const struct trial *trial);

/* What is tested. */
extern const struct library library;

#endif
