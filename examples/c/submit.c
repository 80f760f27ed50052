/* submit CHANGES FILE..: checks each job file, and so many copies of it with a byte changed, and the same job as a driver's submission with all its places moved up to addresses of the bus. Both
 * have the same verdict, rule and place, and the same lists but for the highest byte of each address; the lists are to the byte those of
 * vc4check_place at the same addresses. Each submission is asked twice: with its shaders made before, where they can be made, and with none.
 * The bound of both is the same too.
 * Prints the first file of which that isn't so, or how many were compared. Files that no submission is of are left out (job_file.h). Status
 * 0: all are the same. */
#include <stdio.h>
#include <stdlib.h>
#include <string.h>
#include "job_file.h"

static const uint32_t MOVED = 0xC0000000, MOST = 64u << 20, ROOM = 8u << 20;
static struct filled_submission filled;
static int compared, left_out, refused;
static struct vc4check_known *made[1024];

static uint8_t *whole(const char *name, size_t *length) {
    FILE *file = fopen(name, "rb");
    if (!file) return NULL;
    fseek(file, 0, SEEK_END);
    long size = ftell(file);
    rewind(file);
    uint8_t *bytes = size < 0 ? NULL : malloc((size_t)size + 1);
    *length = bytes ? fread(bytes, 1, (size_t)size, file) : 0;
    fclose(file);
    return bytes;
}

/* Makes the shader of a Code buffer; one that is refused keeps no block. */
static void make_shader(struct vc4check_buffer *buffer, struct vc4check_known **block) {
    struct vc4check_made report;
    static struct vc4check_known none[1];
    uint32_t status = vc4check_make_shader(buffer->content, buffer->length, none, 0, &report);
    if (status != VC4CHECK_SHORT) return;
    *block = malloc(report.entries * sizeof **block);
    buffer->known_count = report.entries;
    buffer->known = *block;
    status = vc4check_make_shader(buffer->content, buffer->length, *block, report.entries, &report);
    if (status != VC4CHECK_ACCEPTED) abort();
}

static void make_shaders(struct vc4check_submission *submission) {
    for (size_t b = 0; b < submission->buffer_count; b++)
        if (filled.buffers[b].kind == VC4CHECK_CODE) make_shader(&filled.buffers[b], &made[b]);
}

static void forget_shaders(struct vc4check_submission *submission) {
    for (size_t b = 0; b < submission->buffer_count; b++) {
        free(made[b]);
        made[b] = NULL;
        filled.buffers[b].known_count = 0;
    }
}

static bool same_bytes(const uint8_t *below, const uint8_t *above, uint32_t count) {
    for (uint32_t i = 0; i < count; i++)
        if (above[i] != below[i] && above[i] - below[i] != (int)(MOVED >> 24)) return false;
    return true;
}

static bool same_job(const struct vc4check_job *a, const struct vc4check_job *b) {
    return b->lists == a->lists + MOVED && b->slot == a->slot + MOVED && b->bin == a->bin && b->records == a->records
        && b->uniforms == a->uniforms && b->render == a->render && b->end == a->end && b->bin_length == a->bin_length
        && b->records_length == a->records_length && b->uniforms_length == a->uniforms_length && b->render_length == a->render_length;
}

/* What is reported of the file at its own places, its memory, and the lists of the same file at the moved ones. */
struct wanted {
    uint32_t status;
    struct vc4check_answer answer, placed;
    bool breaks_strict; /* a strict rule, E, which the moved one alone is asked */
    uint8_t *memory, *lists;
};

/* Where in the file that the submission was made from its refusal is: that file has contents of data buffers too. */
static uint64_t place_in_file(const struct vc4check_verdict *verdict) {
    uint64_t place = place_in_job_file(&filled.submission, verdict);
    for (size_t b = 0; b < filled.submission.buffer_count; b++) {
        bool before = verdict->part > VC4CHECK_OF_CONTENT || (verdict->part == VC4CHECK_OF_CONTENT && b < verdict->index);
        if (before && filled.buffers[b].kind != VC4CHECK_CODE) place += filled.buffers[b].length;
    }
    return place;
}

/* Whether the bound of the submission is that of the file, but for the offset; `status` is the file's verdict. */
static bool same_bound(const uint8_t *bytes, size_t length, uint32_t status) {
    struct vc4check_bound_answer of_file = {0}, answer = {0};
    if (vc4check_bound(bytes, length, &of_file) != status || vc4check_submission_bound(&filled.submission, &answer) != status) return false;
    return answer.offset == 0 && answer.steps_low == of_file.steps_low && answer.steps_high == of_file.steps_high
        && answer.items == of_file.items && answer.stay == of_file.stay && answer.loops == of_file.loops && answer.waits == of_file.waits
        && answer.letter == of_file.letter && answer.number == of_file.number;
}

/* Whether the submission is answered as the file is. */
static bool answers(const struct wanted *wanted, uint8_t *window) {
    const struct vc4check_submission *submission = &filled.submission;
    struct vc4check_verdict verdict;
    memset(window, 0xa5, ROOM);
    uint32_t status = vc4check_submit(submission, window, ROOM, &verdict);
    if (wanted->breaks_strict)
        return status == VC4CHECK_REFUSED && verdict.letter == 'E' && verdict.number == wanted->placed.number
            && place_in_job_file(submission, &verdict) == wanted->placed.offset && window[0] == 0xa5;
    if (status != wanted->status) return false;
    if (wanted->status == VC4CHECK_REFUSED)
        return verdict.letter == wanted->answer.letter && verdict.number == wanted->answer.number
            && place_in_file(&verdict) == wanted->answer.offset && window[0] == 0xa5;
    return same_job(&wanted->answer.job[0], &verdict.job) && window[verdict.size] == 0xa5
        && same_bytes(wanted->memory + (submission->lists - MOVED), window, verdict.size) && memcmp(window, wanted->lists, verdict.size) == 0;
}

/* 1: the same; 0: not; 2: no submission is of this file. */
static int compare(uint8_t *bytes, size_t length, uint8_t *window) {
    struct wanted wanted = {0};
    if (!submission_of_job_file(bytes, length, MOVED, &filled)) return 2;
    wanted.memory = malloc(MOST);
    wanted.lists = malloc(MOST);
    wanted.status = vc4check_check(bytes, length, wanted.memory, MOST, &wanted.answer);
    if (wanted.status == VC4CHECK_REFUSED) refused++;
    size_t moved_length;
    uint8_t *moved = job_file_of_submission(&filled.submission, false, &moved_length);
    uint32_t placed = vc4check_place(moved, moved_length, wanted.lists, MOST, &wanted.placed);
    wanted.breaks_strict = wanted.status == VC4CHECK_ACCEPTED && placed == VC4CHECK_REFUSED && wanted.placed.letter == 'E';
    bool same = (placed == wanted.status || wanted.breaks_strict) && answers(&wanted, window);
    make_shaders(&filled.submission);
    same = same && answers(&wanted, window) && same_bound(bytes, length, wanted.status);
    forget_shaders(&filled.submission);
    free(moved);
    free(wanted.lists);
    free(wanted.memory);
    return same;
}

static bool holds(uint8_t *bytes, size_t length, uint8_t *window) {
    int same = compare(bytes, length, window);
    if (same == 2) left_out++;
    else compared++;
    return same != 0;
}

/* The file, and copies with one byte changed: every third at any place, the others in what comes behind the contents. */
static bool all_hold(uint8_t *bytes, size_t length, long changes, uint8_t *window) {
    static uint64_t state = 1;
    if (!holds(bytes, length, window)) return false;
    for (long i = 0; i < changes && length > 0; i++) {
        state = state * 6364136223846793005u + 1442695040888963407u;
        size_t from = i % 3 && length > 2048 ? length - 2048 : 0, at = from + (size_t)(state >> 33) % (length - from);
        uint8_t kept = bytes[at];
        bytes[at] = (uint8_t)(i % 2 ? kept ^ 1u << (state >> 29 & 7) : state >> 21);
        bool same = holds(bytes, length, window);
        bytes[at] = kept;
        if (!same) return false;
    }
    return true;
}

int main(int count, char **words) {
    long changes = count > 1 ? atol(words[1]) : 0;
    uint8_t *window = malloc(MOST);
    for (int i = 2; i < count; i++) {
        size_t length = 0;
        uint8_t *bytes = whole(words[i], &length);
        if (!bytes || !window) return 3;
        bool same = all_hold(bytes, length, changes, window);
        free(bytes);
        if (!same) {
            printf("%s: not the same\n", words[i]);
            return 1;
        }
    }
    free(window);
    printf("%d the same (%d refused), %d left out\n", compared, refused, left_out);
    return 0;
}
