/* Memory that is lent to the library, which no sanitizer has instrumented. Each block stands in a slot of its own: on one side an
 * inaccessible page, so that the first byte touched past it, read or written, stops the run; on the other side guard bytes. */
#ifndef FENCES_H
#define FENCES_H

#include <stdbool.h>
#include <stddef.h>
#include <stdint.h>

enum { FENCE_SLOTS = 8 };

/* Calls `stopped` when somebody touches what is not lent, or the run ends by another fault or by the alarm. */
void fences_open(void (*stopped)(int signal));

/* A block of this many bytes: against the inaccessible page at its end, else at its beginning. */
uint8_t *fences_lend(int slot, size_t bytes, bool at_end);

/* A block, with guard bytes behind it, at the beginning of so much memory that told lengths of more than 32 bits are true. */
uint8_t *fences_lend_wide(int slot, size_t bytes);

/* Whether the guard bytes beside the block are as they were. */
bool fences_intact(int slot);

/* Gives the slot's memory back to the system. */
void fences_release(int slot);

#endif
