/* From Linux's submit ioctl of the vc4 driver to a submission for the checker. */
#include <string.h>
#include "linux_submit.h"

static const uint32_t PAGE = 4096, NO_BUFFER = UINT32_MAX;
static const uint8_t nothing[1];
static const struct vc4check_known no_entry[1];

_Static_assert(offsetof(struct drm_vc4_submit_cl, flags) - offsetof(struct drm_vc4_submit_cl, width) == sizeof(struct vc4check_frame), "one copy");

/* A size past the last page stays one that no buffer has. */
static uint32_t whole_pages(uint32_t size) {
    return size > UINT32_MAX - PAGE ? UINT32_MAX : (size + PAGE - 1) / PAGE * PAGE;
}

/* The checker takes no null pointer, also for no bytes. */
static const uint8_t *bytes_at(uint64_t pointer) {
    return pointer ? (const uint8_t *)(uintptr_t)pointer : nothing;
}

static struct vc4check_buffer entry_of(const struct submit_buffer *buffer, uint32_t client) {
    return (struct vc4check_buffer){
        .address = buffer->address,
        .size = whole_pages(buffer->size),
        .client = client,
        .kind = buffer->shader ? VC4CHECK_CODE : VC4CHECK_PLAIN,
        .content = buffer->shader ? buffer->shader : nothing,
        .length = buffer->shader ? buffer->shader_length : 0,
        .known = buffer->known ? buffer->known : no_entry,
        .known_count = buffer->known ? buffer->known_count : 0,
    };
}

/* A buffer that is named twice becomes one entry, so that no two entries share bytes. */
static uint32_t number_of(const struct vc4check_buffer *buffers, size_t count, uint32_t address) {
    for (size_t b = 0; b < count; b++)
        if (buffers[b].address == address) return (uint32_t)b;
    return (uint32_t)count;
}

static size_t name_buffers(const struct drm_vc4_submit_cl *submit, uint32_t client, submit_look_up *look_up, void *known,
                           struct vc4check_buffer *buffers, uint32_t *handles) {
    const uint32_t *named = (const uint32_t *)(uintptr_t)submit->bo_handles;
    size_t count = 0;
    for (uint32_t i = 0; i < submit->bo_handle_count; i++) {
        const struct submit_buffer *buffer = look_up(known, named[i]);
        handles[i] = buffer ? number_of(buffers, count, buffer->address) : NO_BUFFER;
        if (handles[i] == count) buffers[count++] = entry_of(buffer, client);
    }
    return count;
}

void submission_of_submit(const struct drm_vc4_submit_cl *submit, uint32_t client, submit_look_up *look_up, void *known,
                          struct vc4check_buffer *buffers, uint32_t *handles, struct vc4check_submission *submission) {
    *submission = (struct vc4check_submission){
        .buffers = buffers,
        .buffer_count = name_buffers(submit, client, look_up, known, buffers, handles),
        .handles = handles,
        .handle_count = submit->bo_handle_count,
        .bin = bytes_at(submit->bin_cl),
        .bin_length = submit->bin_cl_size,
        .records = bytes_at(submit->shader_rec),
        .records_length = submit->shader_rec_size,
        .uniforms = bytes_at(submit->uniforms),
        .uniforms_length = submit->uniforms_size,
        .client = client,
        .flags = submit->flags,
        .states = submit->shader_rec_count,
    };
    memcpy(&submission->frame, &submit->width, sizeof submission->frame);
    memset(submission->frame.pad, 0, sizeof submission->frame.pad); /* the client may leave anything there */
}
