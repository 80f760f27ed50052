/* The allocator that the library asks for, over malloc, realloc and free. The library calls these three functions for all memory
 * that it takes; link this file, or arena.c, or one of your own.
 *
 * A size is below 2^63. An alignment is 1, 2, 4, 8 or 16, so malloc's always does. The pointer is never null: where no memory is
 * left, `ok` is false and the pointer is one that nobody reads. After a failed rattle_realloc the block is as it was. */
#include <stdbool.h>
#include <stddef.h>
#include <stdlib.h>

struct tried {
    bool ok;
    void *block;
};

struct tried rattle_alloc(size_t size, size_t alignment);
struct tried rattle_realloc(void *block, size_t kept, size_t size, size_t alignment);
void rattle_dealloc(void *block);

static struct tried tried(void *block) {
    static char nothing[16];
    return (struct tried){block != NULL, block ? block : nothing};
}

struct tried rattle_alloc(size_t size, size_t alignment) {
    return tried(malloc(size ? size : alignment));
}

struct tried rattle_realloc(void *block, size_t kept, size_t size, size_t alignment) {
    (void)kept; /* realloc keeps the whole block, and the first `kept` bytes are all that has to stay */
    return tried(realloc(block, size ? size : alignment));
}

void rattle_dealloc(void *block) {
    free(block);
}
