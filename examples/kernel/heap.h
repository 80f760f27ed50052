/* SPDX-License-Identifier: MIT OR Apache-2.0 */
/* What the allocator is asked beside memory. */
#ifndef HEAP_H
#define HEAP_H

/* How many of the library's calls for memory succeed before one fails; below 0 all do. To be set while nobody else calls the library. */
extern long heap_left;

/* From heap_over to heap_back what the library takes for this task comes from this block, which is aligned to 16, and a call fails for want of memory only
 * where the block is too small (examples/c/arena.h tells how large it has to be). Others wait in heap_over; their other calls go on. */
void heap_over(void *block, size_t size);
void heap_back(void);

/* How many blocks the library holds. */
long heap_held(void);

#endif
