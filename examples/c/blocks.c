/* blocks CHANGES FILE..: submits the job of each file with a wrong block for each of its shaders in turn: other shaders', its own cut off at
 * each length, and so many copies of it with random words. Each block, and the window, is a piece of memory of its own, so that valgrind sees a
 * read or a write past it. Where a block can't be read (docs/LIBRARY.md), answer and window are those without blocks, since the call checks the
 * shaders itself. Where it can, the answer may be wrong; but a status is reported, and the window changes after VC4CHECK_ACCEPTED alone. Prints the
 * first file of which that isn't so, or how many blocks of each sort there were. Files that no submission is of are left out (job_file.h).
 * Status 0: all is so. */
#include <stdio.h>
#include <stdlib.h>
#include <string.h>
#include "job_file.h"

enum { MOST_OTHERS = 64 };

struct block {
    struct vc4check_known *entries;
    size_t count;
};

static struct filled_submission filled;
static struct block made[1024], others[MOST_OTHERS];
static size_t other_count;
static int unread, read;

static uint8_t *whole(const char *name, size_t *length) {
    FILE *file = fopen(name, "rb");
    if (!file) return NULL;
    fseek(file, 0, SEEK_END);
    long size = ftell(file);
    rewind(file);
    uint8_t *bytes = size < 0 ? NULL : malloc((size_t)size + 1);
    *length = bytes ? fread(bytes, 1, (size_t)size, file) : 0;
    fclose(file);
    return bytes;
}

static uint32_t drawn(void) {
    static uint64_t state = 1;
    state = state * 6364136223846793005u + 1442695040888963407u;
    return (uint32_t)(state >> 32);
}

static struct block copy_of(const struct vc4check_known *entries, size_t count) {
    struct block copy = {malloc(count * sizeof *entries), count};
    if (count && !copy.entries) abort();
    if (count) memcpy(copy.entries, entries, count * sizeof *entries);
    return copy;
}

static struct block block_of(const struct vc4check_buffer *buffer) {
    struct vc4check_made report;
    struct vc4check_known none[1];
    struct block block = {NULL, 0};
    if (vc4check_make_shader(buffer->content, buffer->length, none, 0, &report) != VC4CHECK_SHORT) return block;
    block.entries = malloc(report.entries * sizeof *block.entries);
    block.count = report.entries;
    if (vc4check_make_shader(buffer->content, buffer->length, block.entries, block.count, &report) != VC4CHECK_ACCEPTED) abort();
    return block;
}

static bool in_stream(uint32_t position, uint32_t uniforms) {
    return position == VC4CHECK_NO_POSITION || position < uniforms;
}

/* Whether the call can read a block: what docs/LIBRARY.md says of it. */
static bool is_readable(const struct block *block) {
    if (block->count == 0) return false;
    uint32_t uniforms = block->entries[0].words[0], samples = block->entries[0].words[1];
    if (block->count != (size_t)1 + samples + block->entries[0].words[2]) return false;
    for (size_t k = 1; k < block->count; k++) {
        const uint32_t *words = block->entries[k].words;
        if (k > samples && words[0] >= uniforms) return false;
        if (k <= samples && words[0] == VC4CHECK_NO_POSITION) return false;
        for (int n = 0; k <= samples && n < 4; n++)
            if (!in_stream(words[n], uniforms)) return false;
    }
    return true;
}

/* What is reported, in a window of just so many bytes. */
struct report {
    uint32_t status;
    struct vc4check_verdict verdict;
    uint8_t *window;
    size_t room;
};

static struct report ask(size_t room) {
    struct report report = {.window = malloc(room), .room = room};
    if (room && !report.window) abort();
    if (room) memset(report.window, 0xa5, room);
    report.status = vc4check_submit(&filled.submission, report.window, room, &report.verdict);
    return report;
}

static bool same(const struct report *a, const struct report *b) {
    bool told_same = a->status == b->status && memcmp(&a->verdict, &b->verdict, sizeof a->verdict) == 0;
    return told_same && (a->room == 0 || memcmp(a->window, b->window, a->room) == 0);
}

static bool is_kept(const struct report *report) {
    for (size_t i = report->status == VC4CHECK_ACCEPTED ? report->verdict.size : 0; i < report->room; i++)
        if (report->window[i] != 0xa5) return false;
    return report->status <= VC4CHECK_NO_MEMORY && (report->status != VC4CHECK_ACCEPTED || report->verdict.size <= report->room);
}

/* One submission with this block for buffer b, which is freed. */
static bool holds(size_t b, struct block block, const struct report *wanted) {
    filled.buffers[b].known = block.entries;
    filled.buffers[b].known_count = block.count;
    struct report report = ask(wanted->room);
    bool can = is_readable(&block), fine = is_kept(&report) && (can || same(&report, wanted));
    if (can) read++;
    else unread++;
    filled.buffers[b].known = made[b].entries;
    filled.buffers[b].known_count = made[b].count;
    free(report.window);
    free(block.entries);
    return fine;
}

/* A copy with one to three words changed, some to small numbers. */
static struct block changed(const struct block *block) {
    struct block copy = copy_of(block->entries, block->count);
    for (uint32_t left = 1 + drawn() % 3; left > 0; left--) {
        uint32_t *word = &copy.entries[drawn() % copy.count].words[drawn() % 5], kind = drawn() % 3;
        *word = kind == 0 ? drawn() : kind == 1 ? drawn() % 16 : UINT32_MAX - drawn() % 3;
    }
    return copy;
}

static bool all_hold(size_t b, long changes, const struct report *wanted) {
    const struct block *block = &made[b];
    bool fine = true;
    for (size_t k = 0; fine && k < other_count; k++) fine = holds(b, copy_of(others[k].entries, others[k].count), wanted);
    for (size_t cut = 0; fine && cut < block->count; cut++) fine = holds(b, copy_of(block->entries, cut), wanted);
    for (long i = 0; fine && i < changes; i++) fine = holds(b, changed(block), wanted);
    return fine;
}

static bool compare(long changes) {
    size_t count = filled.submission.buffer_count;
    struct report short_of = ask(0);
    struct report wanted = ask(short_of.status == VC4CHECK_SHORT ? short_of.verdict.size : 16);
    free(short_of.window);
    for (size_t b = 0; b < count; b++) {
        made[b] = filled.buffers[b].kind == VC4CHECK_CODE ? block_of(&filled.buffers[b]) : (struct block){NULL, 0};
        filled.buffers[b].known = made[b].entries;
        filled.buffers[b].known_count = made[b].count;
    }
    bool fine = true;
    for (size_t b = 0; fine && b < count; b++)
        if (made[b].count) fine = all_hold(b, changes, &wanted);
    for (size_t b = 0; b < count; b++) {
        if (made[b].count && other_count < MOST_OTHERS) others[other_count++] = copy_of(made[b].entries, made[b].count);
        free(made[b].entries);
    }
    free(wanted.window);
    return fine;
}

int main(int count, char **words) {
    long changes = count > 1 ? atol(words[1]) : 0;
    for (int i = 2; i < count; i++) {
        size_t length = 0;
        uint8_t *bytes = whole(words[i], &length);
        if (!bytes) return 3;
        bool fine = !submission_of_job_file(bytes, length, 0xC0000000, &filled) || compare(changes);
        free(bytes);
        if (!fine) {
            printf("%s: a wrong block does harm\n", words[i]);
            return 1;
        }
    }
    while (other_count > 0) free(others[--other_count].entries);
    printf("%d blocks that can't be read, each as none; %d that can, none of which does harm\n", unread, read);
    return 0;
}
