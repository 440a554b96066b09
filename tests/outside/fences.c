#include "fences.h"

#include <signal.h>
#include <stdio.h>
#include <stdlib.h>
#include <string.h>
#include <sys/mman.h>

enum { GUARD = 4096, GUARD_STEP = 167, FENCE = 1 << 20, SLOT = 1 << 28 };

static const size_t WIDE = (size_t)36 << 30;

static struct {
    uint8_t *begin, *block, *guard;
    size_t bytes;
} slots[FENCE_SLOTS];

static uint8_t guard_bytes[GUARD];

static void fail(const char *what)
{
    perror(what);
    exit(2);
}

static void watch(void (*stopped)(int))
{
    static const int signals[] = { SIGSEGV, SIGBUS, SIGILL, SIGFPE, SIGABRT, SIGALRM };
    struct sigaction action = { .sa_handler = stopped };
    for (size_t i = 0; i < sizeof signals / sizeof *signals; i++)
        if (sigaction(signals[i], &action, NULL))
            fail("sigaction");
}

void fences_open(void (*stopped)(int))
{
    size_t all = FENCE_SLOTS * ((size_t)SLOT + FENCE) + FENCE;
    uint8_t *at = mmap(NULL, all, PROT_NONE, MAP_PRIVATE | MAP_ANONYMOUS | MAP_NORESERVE, -1, 0);
    if (at == MAP_FAILED)
        fail("mmap");
    for (int i = 0; i < FENCE_SLOTS; i++) {
        slots[i].begin = at + FENCE + i * ((size_t)SLOT + FENCE);
        if (mprotect(slots[i].begin, SLOT, PROT_READ | PROT_WRITE))
            fail("mprotect");
    }
    for (int i = 0; i < GUARD; i++)
        guard_bytes[i] = (uint8_t)(i * GUARD_STEP + i / 256 + 1);
    watch(stopped);
}

uint8_t *fences_lend(int slot, size_t bytes, bool at_end)
{
    if (bytes > SLOT - GUARD) {
        fprintf(stderr, "fences: %zu bytes are too many\n", bytes);
        exit(2);
    }
    slots[slot].bytes = bytes;
    slots[slot].block = at_end ? slots[slot].begin + SLOT - bytes : slots[slot].begin;
    slots[slot].guard = at_end ? slots[slot].block - GUARD : slots[slot].block + bytes;
    memcpy(slots[slot].guard, guard_bytes, GUARD);
    return slots[slot].block;
}

uint8_t *fences_lend_wide(int slot, size_t bytes)
{
    static uint8_t *wide;
    if (!wide)
        wide = mmap(NULL, WIDE, PROT_READ | PROT_WRITE, MAP_PRIVATE | MAP_ANONYMOUS | MAP_NORESERVE, -1, 0);
    if (wide == MAP_FAILED)
        fail("mmap of 36 GB of addresses");
    slots[slot].bytes = bytes;
    slots[slot].block = wide;
    slots[slot].guard = wide + bytes;
    memcpy(slots[slot].guard, guard_bytes, GUARD);
    return wide;
}

bool fences_intact(int slot)
{
    return memcmp(slots[slot].guard, guard_bytes, GUARD) == 0;
}

void fences_release(int slot)
{
    if (slots[slot].bytes > FENCE)
        madvise(slots[slot].begin, SLOT, MADV_DONTNEED);
}
