/* How much memory vc4check_submit takes at most (arena.h). */
#include "arena.h"

static size_t rounded(size_t size) {
    return (size + 15) / 16 * 16;
}

/* The list of a job's shaders: of each Code buffer its samples, of 36 bytes, and its address words; an entry that was kept tells of one. And
 * what was found of each by the strict check, of at most 16. */
static size_t for_shaders(const struct vc4check_submission *job) {
    size_t size = rounded(72 * job->buffer_count) + rounded(16 * job->buffer_count);
    for (size_t b = 0; b < job->buffer_count; b++)
        if (job->buffers[b].kind == VC4CHECK_CODE) size += rounded(36 * job->buffers[b].known_count) + 16;
    return size;
}

/* The lists as they are written: the renderer list has at most 36 bytes before its tiles and 72 for each. */
static size_t for_lists(const struct vc4check_submission *job) {
    const struct vc4check_frame *frame = &job->frame;
    size_t tiles = 0;
    if (frame->min_x_tile <= frame->max_x_tile && frame->min_y_tile <= frame->max_y_tile)
        tiles = (size_t)(frame->max_x_tile - frame->min_x_tile + 1) * (size_t)(frame->max_y_tile - frame->min_y_tile + 1);
    return rounded(job->bin_length) + rounded(job->records_length) + rounded(job->uniforms_length) + rounded(36 + 72 * tiles);
}

/* Beside these a table of the buffers, their contents' places, the job, and the shader states, whose list grows in place and may have twice the room. */
size_t arena_for_submit(const struct vc4check_submission *job) {
    size_t count = job->buffer_count, states = job->states < 4 ? 4 : job->states;
    return rounded(20 * count) + rounded(16 * count) + rounded(200) + for_shaders(job) + for_lists(job) + rounded(16 * states);
}
