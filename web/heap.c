/* The allocator that the library asks for, in a WebAssembly module's own memory. examples/c/heap.c says what the three functions owe.
 *
 * A block has a power of two of bytes, from 16 on. Before it stand 16 bytes: which power, and while it is free the next free block of its
 * size. Memory is taken upwards from the linker's __heap_base on, and the module's memory grows as needed. */
typedef unsigned long size_t;

struct tried {
    _Bool ok;
    void *block;
};

struct head {
    size_t power;
    struct head *next;
};

#define PAGE 65536ul

extern char __heap_base;
static struct head *free_blocks[64];
static char *top;

/* The least power whose block has room for a size. */
static size_t power_of(size_t size) {
    return size <= 16 ? 4 : 64 - (size_t)__builtin_clzl(size - 1);
}

/* So many further bytes of the module's memory, or null. */
static void *grown(size_t size) {
    if (!top) top = (char *)(((size_t)&__heap_base + 15) / 16 * 16);
    size_t room = __builtin_wasm_memory_size(0) * PAGE - (size_t)top;
    if (room < size && __builtin_wasm_memory_grow(0, (size - room + PAGE - 1) / PAGE) == (size_t)-1) return 0;
    char *block = top;
    top += size;
    return block;
}

struct tried rattle_alloc(size_t size, size_t alignment) {
    (void)alignment; /* at most 16 */
    struct tried none = {0, &__heap_base};
    if (size > 1ul << 40) return none;
    size_t power = power_of(size);
    struct head *head = free_blocks[power];
    if (head) {
        free_blocks[power] = head->next;
    } else {
        head = grown(sizeof(struct head) + (1ul << power));
        if (!head) return none;
        head->power = power;
    }
    return (struct tried){1, head + 1};
}

void rattle_dealloc(void *block) {
    struct head *head = (struct head *)block - 1;
    head->next = free_blocks[head->power];
    free_blocks[head->power] = head;
}

struct tried rattle_realloc(void *block, size_t kept, size_t size, size_t alignment) {
    struct head *head = (struct head *)block - 1;
    if (size <= 1ul << head->power) return (struct tried){1, block};
    struct tried moved = rattle_alloc(size, alignment);
    if (!moved.ok) return moved;
    __builtin_memcpy(moved.block, block, kept);
    rattle_dealloc(block);
    return moved;
}

/* A block for what the page hands over, or null. A call has an instance of its own, so nothing is given back. */
__attribute__((export_name("take"))) void *take(size_t size) {
    struct tried tried = rattle_alloc(size, 16);
    return tried.ok ? tried.block : (void *)0;
}
