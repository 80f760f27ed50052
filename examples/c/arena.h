/* An allocator for the library over one block of the caller's (arena.c), for programs without a C library. */
#ifndef ARENA_H
#define ARENA_H

#include <stddef.h>
#include "vc4check.h"

/* From now on the library takes its memory from this block. It is aligned to 16, and no call of the library runs meanwhile. */
void arena_over(void *block, size_t size);

/* The most bytes of it that were taken at one time. */
size_t arena_peak(void);

/* How large a block is always enough for vc4check_submit of this job, whatever is in it, where each Code buffer has what was kept of its shader: such a
 * call does not run out of memory. Lengths, handles and states are within the limits of F4 (docs/RULES.md). What the call takes was read in its sources and
 * is tested (room.c), not proved: a contract of the library's may fail any allocation. */
size_t arena_for_submit(const struct vc4check_submission *job);

#endif
