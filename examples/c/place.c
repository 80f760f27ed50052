/* place FILE..: checks each job file, and the same job with all its places moved up to addresses of the bus, as a driver has them. Both
 * have the same answer, and the same lists but for the highest byte of each address; but a job that breaks a strict rule, E, is refused only
 * where it is moved. Prints the first file of which that isn't so, or how many files were compared. Files that can't be moved are left out:
 * those whose memory has no byte, or with a number over 64 MiB among memory and places. Status 0: all are the same. */
#include <stdio.h>
#include <stdlib.h>
#include "vc4check.h"

enum { HEADER = 36, ENTRY = 20, MOST_BUFFERS = 1024 };
static const uint32_t MOVED = 0xC0000000, MOST = 64u << 20;

static uint8_t *whole(const char *name, size_t *length) {
    FILE *file = fopen(name, "rb");
    if (!file) return NULL;
    fseek(file, 0, SEEK_END);
    long size = ftell(file);
    rewind(file);
    uint8_t *bytes = size < 0 ? NULL : malloc((size_t)size + 1);
    *length = bytes ? fread(bytes, 1, (size_t)size, file) : 0;
    fclose(file);
    return bytes;
}

static uint32_t word_at(const uint8_t *at) {
    return at[0] | (uint32_t)at[1] << 8 | (uint32_t)at[2] << 16 | (uint32_t)at[3] << 24;
}

/* Moves the place at these bytes, if it can be moved. */
static int move(uint8_t *at) {
    if (word_at(at) > MOST) return 0;
    at[3] = (uint8_t)(at[3] + (MOVED >> 24));
    return 1;
}

/* The memory's size and the places of the two regions and of each buffer. */
static int move_all(uint8_t *bytes, size_t length) {
    if (length < HEADER || word_at(bytes + 8) == 0 || !move(bytes + 8) || !move(bytes + 12) || !move(bytes + 20)) return 0;
    uint32_t buffers = word_at(bytes + 28);
    for (uint32_t b = 0; b < buffers && b < MOST_BUFFERS && HEADER + ENTRY * (b + 1) <= length; b++)
        if (!move(bytes + HEADER + ENTRY * b)) return 0;
    return 1;
}

static int same_bytes(const uint8_t *below, const uint8_t *above, uint32_t count) {
    for (uint32_t i = 0; i < count; i++)
        if (above[i] != below[i] && above[i] - below[i] != (int)(MOVED >> 24)) return 0;
    return 1;
}

static int same_job(const struct vc4check_job *a, const struct vc4check_job *b) {
    return b->lists == a->lists + MOVED && b->slot == a->slot + MOVED && b->bin == a->bin && b->records == a->records
        && b->uniforms == a->uniforms && b->render == a->render && b->end == a->end && b->bin_length == a->bin_length
        && b->records_length == a->records_length && b->uniforms_length == a->uniforms_length && b->render_length == a->render_length;
}

/* Whether the two answers are the same: 1, or 0; 2 where the job can't be moved. */
static int compare(uint8_t *bytes, size_t length) {
    struct vc4check_answer below, above;
    uint8_t *block = malloc(MOST), *window = malloc(MOST);
    uint32_t status = vc4check_check(bytes, length, block, MOST, &below), placed, same;
    uint32_t region = length < HEADER ? 0 : word_at(bytes + 12);
    if (!move_all(bytes, length)) {
        same = 2;
    } else if ((placed = vc4check_place(bytes, length, window, MOST, &above)) != status) {
        same = status == VC4CHECK_ACCEPTED && placed == VC4CHECK_REFUSED && above.letter == 'E';
    } else if (status == VC4CHECK_REFUSED) {
        same = above.letter == below.letter && above.number == below.number && above.offset == below.offset;
    } else {
        same = above.jobs == below.jobs && same_bytes(block + region, window, above.size);
        for (uint32_t j = 0; j < below.jobs; j++) same = same && same_job(&below.job[j], &above.job[j]);
    }
    free(window);
    free(block);
    return (int)same;
}

int main(int count, char **words) {
    int compared = 0, left_out = 0;
    for (int i = 1; i < count; i++) {
        size_t length = 0;
        uint8_t *bytes = whole(words[i], &length);
        if (!bytes) return 3;
        int same = compare(bytes, length);
        free(bytes);
        if (!same) {
            printf("%s: not the same\n", words[i]);
            return 1;
        }
        if (same == 2) left_out++;
        else compared++;
    }
    printf("%d the same, %d left out\n", compared, left_out);
    return 0;
}
