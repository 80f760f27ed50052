/* The allocator that the library asks for, over one block of the caller's and with no C library. Memory is taken upwards. What was
 * taken last can grow in place and be given back; all is free again as soon as nothing is held, which is so after each call. One
 * thread at a time. heap.c says what the three functions owe. */
#include <stdbool.h>
#include <stdint.h>
#include "arena.h"

struct tried {
    bool ok;
    void *block;
};

struct tried rattle_alloc(size_t size, size_t alignment);
struct tried rattle_realloc(void *block, size_t kept, size_t size, size_t alignment);
void rattle_dealloc(void *block);

static unsigned char *start, *end, *top, *last; /* `last` is the block that was taken last, where it is still held */
static unsigned char *highest;
static size_t held;

void arena_over(void *block, size_t size) {
    start = top = highest = block;
    end = start + size / 16 * 16;
    last = NULL;
    held = 0;
}

size_t arena_peak(void) {
    return (size_t)(highest - start);
}

static size_t rounded(size_t size) {
    return (size + 15) / 16 * 16;
}

/* Makes `top` the first multiple of 16 behind so many bytes from a place on; false where they don't fit. */
static bool reach(unsigned char *from, size_t size) {
    if (size > (size_t)(end - from)) return false;
    top = from + rounded(size);
    if (top > highest) highest = top;
    return true;
}

struct tried rattle_alloc(size_t size, size_t alignment) {
    (void)alignment; /* at most 16 */
    unsigned char *block = top;
    if (!reach(block, size ? size : 1)) return (struct tried){false, start};
    last = block;
    held++;
    return (struct tried){true, block};
}

struct tried rattle_realloc(void *block, size_t kept, size_t size, size_t alignment) {
    if (block == last) return (struct tried){reach(block, size ? size : 1), block};
    struct tried moved = rattle_alloc(size, alignment);
    if (!moved.ok) return moved;
    for (size_t i = 0; i < kept; i++) ((unsigned char *)moved.block)[i] = ((unsigned char *)block)[i];
    held--;
    return moved;
}

void rattle_dealloc(void *block) {
    if (block == last) {
        top = last;
        last = NULL;
    }
    if (--held == 0) {
        top = start;
        last = NULL;
    }
}
