/* starved FILE..: checks the job of each file as a driver's submission, its shaders made before and not, with an allocator of its own whose
 * first call fails, then its second, and so on, until none does. Each time but the last the call says so, and window and verdict are as they
 * were; and each time all that was taken is given back. Prints how many calls were made, and for each file how many bytes of memory and of stack
 * a call takes at most, where it checks the shaders and where it knows them; status 0 where that holds for all. */
#include <stdbool.h>
#include <stdio.h>
#include <stdlib.h>
#include <string.h>
#include <ucontext.h>
#include "job_file.h"

struct tried {
    bool ok;
    void *block;
};

struct tried rattle_alloc(size_t size, size_t alignment);
struct tried rattle_realloc(void *block, size_t kept, size_t size, size_t alignment);
void rattle_dealloc(void *block);

static long left = -1, held; /* how many calls succeed before one fails, all where it is below 0; and how many blocks are held */
static size_t held_bytes, most_bytes;

static struct tried tried(void *block, size_t size) {
    static char nothing[16];
    if (!block) return (struct tried){false, nothing};
    *(size_t *)block = size;
    held_bytes += size;
    if (held_bytes > most_bytes) most_bytes = held_bytes;
    return (struct tried){true, (char *)block + 16};
}

/* The bytes that a block was asked for stand 16 bytes before it. */
static size_t forgotten(void *block) {
    size_t size = *(size_t *)((char *)block - 16);
    held_bytes -= size;
    return size;
}

struct tried rattle_alloc(size_t size, size_t alignment) {
    (void)alignment;
    if (left == 0) return tried(NULL, 0);
    if (left > 0) left--;
    held++;
    return tried(malloc(size + 16), size);
}

struct tried rattle_realloc(void *block, size_t kept, size_t size, size_t alignment) {
    (void)kept;
    (void)alignment;
    if (left == 0) return tried(NULL, 0);
    if (left > 0) left--;
    forgotten(block);
    return tried(realloc((char *)block - 16, size + 16), size);
}

void rattle_dealloc(void *block) {
    held--;
    forgotten(block);
    free((char *)block - 16);
}

enum { ROOM = 1 << 22 };
static uint8_t bytes[1 << 25], window[ROOM], before[ROOM];
static struct filled_submission filled;
static struct vc4check_known known[1 << 16];
static long calls;

static uint8_t stack[1 << 16];
static ucontext_t outside, inside;

static void submit(void) {
    struct vc4check_verdict verdict;
    vc4check_submit(&filled.submission, window, ROOM, &verdict);
}

/* How many bytes of a stack of its own one call writes to. */
static size_t stack_taken(void) {
    size_t untouched = 0;
    memset(stack, 0xa5, sizeof stack);
    getcontext(&inside);
    inside.uc_stack.ss_sp = stack;
    inside.uc_stack.ss_size = sizeof stack;
    inside.uc_link = &outside;
    makecontext(&inside, submit, 0);
    swapcontext(&outside, &inside);
    while (untouched < sizeof stack && stack[untouched] == 0xa5) untouched++;
    return sizeof stack - untouched;
}

static void tell(const char *name, const char *how) {
    most_bytes = 0;
    size_t of_stack = stack_taken();
    printf("%s, %s: %zu bytes of memory, %zu of stack\n", name, how, most_bytes, of_stack);
}

/* Fails the allocator at each of its calls in turn. */
static bool holds(void) {
    struct vc4check_verdict verdict, untold;
    memset(&untold, 0xa5, sizeof untold);
    for (long n = 0;; n++) {
        verdict = untold;
        left = n;
        uint32_t status = vc4check_submit(&filled.submission, window, ROOM, &verdict);
        left = -1;
        calls++;
        if (held != 0) return false;
        if (status != VC4CHECK_NO_MEMORY) return true;
        if (memcmp(&verdict, &untold, sizeof verdict) != 0 || memcmp(window, before, ROOM) != 0) return false;
    }
}

static void make_shaders(void) {
    size_t taken = 0;
    struct vc4check_made made;
    for (size_t b = 0; b < filled.submission.buffer_count; b++) {
        struct vc4check_buffer *buffer = &filled.buffers[b];
        if (buffer->kind != VC4CHECK_CODE) continue;
        if (vc4check_make_shader(buffer->content, buffer->length, known + taken, sizeof known / sizeof *known - taken, &made) != 0) continue;
        buffer->known = known + taken;
        buffer->known_count = made.entries;
        taken += made.entries;
    }
}

int main(int count, char **words) {
    for (int i = 1; i < count; i++) {
        FILE *file = fopen(words[i], "rb");
        if (!file) return 3;
        size_t length = fread(bytes, 1, sizeof bytes, file);
        fclose(file);
        if (!submission_of_job_file(bytes, length, 0xC0000000, &filled)) continue;
        memset(before, 0x5a, ROOM);
        memset(window, 0x5a, ROOM);
        bool same = holds();
        tell(words[i], "shaders checked");
        make_shaders();
        memset(window, 0x5a, ROOM);
        if (!same || !holds()) {
            printf("%s: not as it was\n", words[i]);
            return 1;
        }
        tell(words[i], "shaders known");
    }
    printf("%ld calls\n", calls);
    return 0;
}
