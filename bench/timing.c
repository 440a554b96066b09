#define _POSIX_C_SOURCE 200809L

#include "timing.h"

#include <stdio.h>
#include <stdlib.h>
#include <string.h>
#include <time.h>

enum { ALIGNMENT = 64 };

void fail(const char *why)
{
    fprintf(stderr, "bench: %s\n", why);
    exit(1);
}

void *touched(size_t bytes)
{
    void *p = aligned_alloc(ALIGNMENT, (bytes + ALIGNMENT) / ALIGNMENT * ALIGNMENT);
    if (p == NULL)
        fail("no memory");
    memset(p, 1, bytes);
    return p;
}

void read_once(const uint8_t *bytes, size_t count)
{
    uint8_t sum = 0;
    for (size_t i = 0; i < count; i++)
        sum ^= bytes[i];
    __asm__ volatile("" : : "r"(sum)); /* so that the loop is not left out */
}

uint64_t cpu_ns(void)
{
    struct timespec t;
    clock_gettime(CLOCK_PROCESS_CPUTIME_ID, &t);
    return (uint64_t)t.tv_sec * 1000000000u + (uint64_t)t.tv_nsec;
}

static int ascending(const void *a, const void *b)
{
    uint64_t x = *(const uint64_t *)a, y = *(const uint64_t *)b;
    return (x > y) - (x < y);
}

static int ascending_ratios(const void *a, const void *b)
{
    double x = *(const double *)a, y = *(const double *)b;
    return (x > y) - (x < y);
}

struct spread spread_of(const uint64_t *times, uint32_t turns)
{
    uint64_t sorted[MAX_TURNS];
    memcpy(sorted, times, turns * sizeof times[0]);
    qsort(sorted, turns, sizeof sorted[0], ascending);
    return (struct spread){.median = sorted[turns / 2], .least = sorted[0]};
}

double median_ratio(const uint64_t *times, const uint64_t *library, uint32_t turns)
{
    double ratios[MAX_TURNS];
    for (uint32_t k = 0; k < turns; k++)
        ratios[k] = (double)times[k] / (double)library[k];
    qsort(ratios, turns, sizeof ratios[0], ascending_ratios);
    return ratios[turns / 2];
}

static uint32_t number(const char *word) { return (uint32_t)strtoul(word, NULL, 10); }

int do_mode(int argc, char **argv, const struct modes *m)
{
    const char *mode = argc > 1 ? argv[1] : "";
    if (argc == 3 && strcmp(mode, "agree") == 0)
        m->agree(number(argv[2]));
    else if (argc == 2 && strcmp(mode, "time") == 0)
        m->time();
    else if (argc == 5 && strcmp(mode, "once") == 0)
        m->once(argv[2], number(argv[3]), number(argv[4]));
    else {
        fprintf(stderr, "usage: %s agree JOBS | time | once NAME W H\n", m->name);
        return 1;
    }
    return 0;
}
