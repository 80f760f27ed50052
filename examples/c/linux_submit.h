/* From Linux's submit ioctl of the vc4 driver to a submission for the checker. docs/LIBRARY.md says what goes where. */
#ifndef LINUX_SUBMIT_H
#define LINUX_SUBMIT_H

#include <vc4_drm.h>
#include "vc4check.h"

/* A buffer as the driver knows it: where it lies, its bytes, and of a shader's buffer the shader and what was made of it. */
struct submit_buffer {
    uint32_t address, size;
    const uint8_t *shader; /* null for a data buffer */
    size_t shader_length;
    const struct vc4check_known *known;
    size_t known_count;
};

/* Looks a GEM handle up; null where the client has no such buffer. */
typedef const struct submit_buffer *submit_look_up(void *known, uint32_t handle);

/* Fills a submission, but for `end`, `lists`, `lists_size` and `slot`, which are the driver's. `buffers` and `handles` have room for
 * submit->bo_handle_count elements each, and at least one. What `submit` points to is named, not copied: hand over copies that the client
 * can't reach. */
void submission_of_submit(const struct drm_vc4_submit_cl *submit, uint32_t client, submit_look_up *look_up, void *known,
                          struct vc4check_buffer *buffers, uint32_t *handles, struct vc4check_submission *submission);

#endif
