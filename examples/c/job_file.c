/* From a submission to a job file, and back. docs/FORMATS.md has the file's form. */
#include <stdlib.h>
#include <string.h>
#include "job_file.h"

enum { PAGE = 4096, SLOT = 524288, HEADER = 36, ENTRY = 20, JOB = 124, FRAME = 96, MOST_BUFFERS = 1024, MOST_FIRST = 64 };
static const uint32_t MOST_MOVED = 64u << 20;

static uint8_t *put(uint8_t *at, const void *bytes, size_t length) {
    if (length) memcpy(at, bytes, length);
    return at + length;
}

/* What no word holds stays what no memory has. */
static uint8_t *put_word(uint8_t *at, uint64_t number) {
    uint32_t word = number > UINT32_MAX ? UINT32_MAX : (uint32_t)number;
    for (int i = 0; i < 4; i++) *at++ = (uint8_t)(word >> 8 * i);
    return at;
}

static uint32_t word_at(const uint8_t *at) {
    return at[0] | (uint32_t)at[1] << 8 | (uint32_t)at[2] << 16 | (uint32_t)at[3] << 24;
}

static size_t content_of(const struct vc4check_buffer *buffer) {
    return buffer->kind == VC4CHECK_CODE ? buffer->length : 0;
}

static uint64_t packed_end(const struct vc4check_submission *s) {
    uint64_t end = (uint64_t)s->lists_size + SLOT;
    for (size_t b = 0; b < s->buffer_count; b++) end += s->buffers[b].size;
    return end;
}

static uint8_t *put_header(uint8_t *at, const struct vc4check_submission *s, bool packed) {
    at = put_word(put(at, "VC4J", 4), 2);
    at = put_word(put_word(put_word(at, packed ? packed_end(s) : s->end), packed ? 0 : s->lists), s->lists_size);
    at = put_word(put_word(at, packed ? s->lists_size : s->slot), 1);
    return put_word(put_word(at, s->buffer_count), 1);
}

static uint8_t *put_entries(uint8_t *at, const struct vc4check_submission *s, bool packed) {
    uint64_t place = (uint64_t)s->lists_size + SLOT;
    for (size_t b = 0; b < s->buffer_count; b++) {
        const struct vc4check_buffer *buffer = &s->buffers[b];
        at = put_word(put_word(put_word(at, packed ? place : buffer->address), buffer->size), buffer->client);
        at = put_word(put_word(at, buffer->kind), content_of(buffer));
        place += buffer->size;
    }
    return at;
}

static uint8_t *put_job(uint8_t *at, const struct vc4check_submission *s) {
    at = put_word(put_word(put_word(at, s->client), s->flags), s->handle_count);
    at = put_word(put_word(at, s->bin_length), s->records_length);
    at = put_word(put_word(at, s->states), s->uniforms_length);
    return put(at, &s->frame, FRAME);
}

static size_t length_of(const struct vc4check_submission *s) {
    size_t length = HEADER + ENTRY * s->buffer_count + JOB + 4 * s->handle_count + s->bin_length + s->records_length + s->uniforms_length;
    for (size_t b = 0; b < s->buffer_count; b++) length += content_of(&s->buffers[b]);
    return length;
}

uint8_t *job_file_of_submission(const struct vc4check_submission *s, bool packed, size_t *length) {
    *length = length_of(s);
    uint8_t *file = malloc(*length);
    if (!file) return NULL;
    uint8_t *at = put_job(put_entries(put_header(file, s, packed), s, packed), s);
    for (size_t b = 0; b < s->buffer_count; b++) at = put(at, s->buffers[b].content, content_of(&s->buffers[b]));
    for (size_t h = 0; h < s->handle_count; h++) at = put_word(at, s->handles[h]);
    put(put(put(at, s->bin, s->bin_length), s->records, s->records_length), s->uniforms, s->uniforms_length);
    return file;
}

uint64_t place_in_job_file(const struct vc4check_submission *s, const struct vc4check_verdict *verdict) {
    uint64_t job = HEADER + ENTRY * s->buffer_count, handles = length_of(s) - s->uniforms_length - s->records_length - s->bin_length - 4 * s->handle_count;
    uint64_t bin = handles + 4 * s->handle_count, start = job + JOB;
    switch (verdict->part) {
    case VC4CHECK_OF_MEMORY: start = 0; break;
    case VC4CHECK_OF_BUFFER: start = HEADER + (uint64_t)ENTRY * verdict->index; break;
    case VC4CHECK_OF_JOB: start = job; break;
    case VC4CHECK_OF_HANDLES: start = handles; break;
    case VC4CHECK_OF_BIN: start = bin; break;
    case VC4CHECK_OF_RECORDS: start = bin + s->bin_length; break;
    case VC4CHECK_OF_UNIFORMS: start = bin + s->bin_length + s->records_length; break;
    default:
        for (size_t b = 0; b < verdict->index; b++) start += content_of(&s->buffers[b]);
    }
    return start + verdict->offset;
}

/* The next so many bytes of the file; false where it ends before. */
static bool take(const uint8_t **at, const uint8_t *end, size_t length, const uint8_t **part) {
    if ((size_t)(end - *at) < length) return false;
    *part = *at;
    *at += length;
    return true;
}

static bool fill_buffers(const uint8_t *entries, size_t count, uint32_t moved, struct vc4check_buffer *buffers) {
    for (size_t b = 0; b < count; b++) {
        const uint8_t *entry = entries + ENTRY * b;
        buffers[b] = (struct vc4check_buffer){.address = word_at(entry) + moved, .size = word_at(entry + 4), .client = word_at(entry + 8),
            .kind = word_at(entry + 12), .length = word_at(entry + 16)};
        if (word_at(entry) > MOST_MOVED && moved) return false;
        if (buffers[b].kind != VC4CHECK_CODE && buffers[b].length > buffers[b].size) return false;
    }
    return true;
}

static void fill_job(const uint8_t *entry, struct vc4check_submission *s) {
    s->client = word_at(entry);
    s->flags = word_at(entry + 4);
    s->handle_count = word_at(entry + 8);
    s->bin_length = word_at(entry + 12);
    s->records_length = word_at(entry + 16);
    s->states = word_at(entry + 20);
    s->uniforms_length = word_at(entry + 24);
    memcpy(&s->frame, entry + 28, FRAME);
}

static bool fill_header(const uint8_t *header, uint32_t moved, struct vc4check_submission *s) {
    uint32_t version = word_at(header + 4), end = word_at(header + 8), lists = word_at(header + 12), slot = word_at(header + 20);
    if (memcmp(header, "VC4J", 4) != 0 || version < 1 || version > 2 || word_at(header + 24) != 1 || word_at(header + 32) != 1) return false;
    if (moved && (end == 0 || end > MOST_MOVED || lists > MOST_MOVED || slot > MOST_MOVED)) return false;
    s->end = end + moved;
    s->lists = lists + moved;
    s->lists_size = word_at(header + 16);
    s->slot = slot + moved;
    s->buffer_count = word_at(header + 28);
    return s->buffer_count <= (version == 1 ? MOST_FIRST : MOST_BUFFERS);
}

static bool fill_parts(const uint8_t *at, const uint8_t *end, struct filled_submission *into) {
    struct vc4check_submission *s = &into->submission;
    const uint8_t *handles;
    for (size_t b = 0; b < s->buffer_count; b++)
        if (!take(&at, end, into->buffers[b].length, &into->buffers[b].content)) return false;
    if (!take(&at, end, 4 * s->handle_count, &handles)) return false;
    for (size_t h = 0; h < s->handle_count; h++) into->handles[h] = word_at(handles + 4 * h);
    return take(&at, end, s->bin_length, &s->bin) && take(&at, end, s->records_length, &s->records)
        && take(&at, end, s->uniforms_length, &s->uniforms) && at == end;
}

bool submission_of_job_file(const uint8_t *bytes, size_t length, uint32_t moved, struct filled_submission *into) {
    const uint8_t *at = bytes, *end = bytes + length, *header, *entries, *job;
    static const struct vc4check_known none[1];
    struct vc4check_submission *s = &into->submission;
    *s = (struct vc4check_submission){.buffers = into->buffers, .handles = into->handles};
    if (!take(&at, end, HEADER, &header) || !fill_header(header, moved, s)) return false;
    if (!take(&at, end, ENTRY * s->buffer_count, &entries) || !take(&at, end, JOB, &job)) return false;
    if (!fill_buffers(entries, s->buffer_count, moved, into->buffers)) return false;
    fill_job(job, s);
    if (s->handle_count > (word_at(header + 4) == 1 ? MOST_FIRST : MOST_BUFFERS)) return false;
    for (size_t b = 0; b < s->buffer_count; b++) into->buffers[b].known = none;
    return fill_parts(at, end, into);
}
