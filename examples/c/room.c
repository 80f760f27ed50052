/* room CHANGES FILE..: asks vc4check_submit of each job file's job, and of so many copies of the file with bytes changed, once with a block of 16 MiB for
 * all that the call takes, and once with a block of just the size that arena_for_submit tells; shaders are made before, and a job with one that is refused is
 * left out. The second call never runs out of memory, and both say the same. Prints how many jobs were asked, and how much of it was taken at
 * most. Status 0 where that holds for all. */
#include <stdio.h>
#include <stdlib.h>
#include <string.h>
#include "arena.h"
#include "job_file.h"

enum { ROOM = 8 << 20, BLOCK = 16 << 20, KNOWN = 1 << 16 };
static uint8_t bytes[1 << 25], changed[1 << 25], window[ROOM], other_window[ROOM];
static unsigned char block[BLOCK] __attribute__((aligned(16)));
static struct filled_submission filled;
static struct vc4check_known known[KNOWN];
static long asked, accepted, left_out;
static size_t most_share;

/* Makes all shaders; false where one is refused. */
static bool makes_shaders(void) {
    struct vc4check_known *free = known;
    struct vc4check_made made;
    for (size_t b = 0; b < filled.submission.buffer_count; b++) {
        struct vc4check_buffer *buffer = &filled.buffers[b];
        if (buffer->kind != VC4CHECK_CODE) continue;
        if (vc4check_make_shader(buffer->content, buffer->length, free, (size_t)(known + KNOWN - free), &made) != VC4CHECK_ACCEPTED) return false;
        buffer->known = free;
        buffer->known_count = made.entries;
        free += made.entries;
    }
    return true;
}

/* Whether the reported size is enough for the job of this file. */
static bool holds(const uint8_t *file, size_t length) {
    struct vc4check_verdict verdict, other;
    arena_over(block, BLOCK);
    if (!submission_of_job_file(file, length, 0xC0000000, &filled) || !makes_shaders()) return ++left_out;
    size_t report = arena_for_submit(&filled.submission);
    if (report > BLOCK) return ++left_out;
    memset(&verdict, 0, sizeof verdict);
    memset(&other, 0, sizeof other);
    uint32_t status = vc4check_submit(&filled.submission, window, ROOM, &verdict);
    arena_over(block, report);
    uint32_t again = vc4check_submit(&filled.submission, other_window, ROOM, &other);
    size_t share = 100 * arena_peak() / report;
    if (share > most_share) most_share = share;
    asked++;
    accepted += status == VC4CHECK_ACCEPTED;
    return again == status && again != VC4CHECK_NO_MEMORY && memcmp(&verdict, &other, sizeof verdict) == 0
        && (again != VC4CHECK_ACCEPTED || memcmp(window, other_window, verdict.size) == 0);
}

/* The file, and copies with one to four bytes changed. */
static bool all_hold(size_t length, long changes) {
    static uint64_t state = 1;
    if (!holds(bytes, length)) return false;
    for (long i = 0; i < changes && length > 0; i++) {
        memcpy(changed, bytes, length);
        for (long n = i % 4; n >= 0; n--) {
            state = state * 6364136223846793005u + 1442695040888963407u;
            changed[(state >> 33) % length] ^= (uint8_t)(1u << (state >> 29 & 7));
        }
        if (!holds(changed, length)) return false;
    }
    return true;
}

int main(int count, char **words) {
    long changes = count > 1 ? atol(words[1]) : 0;
    for (int i = 2; i < count; i++) {
        FILE *file = fopen(words[i], "rb");
        if (!file) return 3;
        size_t length = fread(bytes, 1, sizeof bytes, file);
        fclose(file);
        if (!all_hold(length, changes)) {
            printf("%s: the reported room is not enough, or the answers differ\n", words[i]);
            return 1;
        }
    }
    printf("%ld jobs asked in the reported room, %ld accepted, %ld left out; at most %zu %% of it was taken\n", asked, accepted, left_out, most_share);
    return 0;
}
