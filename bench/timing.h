/* What the programs of the benchmark share: times, and how they are asked. */
#ifndef TIMING_H
#define TIMING_H

#include <stddef.h>
#include <stdint.h>

enum { MAX_TURNS = 101 };

/* Ends the program. */
_Noreturn void fail(const char *why);

/* Memory that has been written once, so that no page is missing when the clock runs. */
void *touched(size_t bytes);

/* Reads the bytes, so that each contestant finds the caches alike, whoever went before it. */
void read_once(const uint8_t *bytes, size_t count);

/* The CPU time of the process. */
uint64_t cpu_ns(void);

/* Of the times of some turns. */
struct spread {
    uint64_t median, least;
};

struct spread spread_of(const uint64_t *times, uint32_t turns);

/* How many times the library's time another contestant took: the median over the turns. Both ran within one turn,
 * so that a host that is slower for a second is slower for both. */
double median_ratio(const uint64_t *times, const uint64_t *library, uint32_t turns);

/* What a program can be asked: to compare on so many random jobs, to time, to do one contestant's work once. */
struct modes {
    const char *name; /* the program's */
    void (*agree)(uint32_t jobs);
    void (*time)(void);
    void (*once)(const char *contestant, uint32_t w, uint32_t h);
};

/* Does what `main` was asked: agree JOBS, time, or once NAME W H. */
int do_mode(int argc, char **argv, const struct modes *);

#endif
