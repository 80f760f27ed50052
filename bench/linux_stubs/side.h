/* Linux's checker of a job, as the yardstick calls it. */
#ifndef SIDE_H
#define SIDE_H

#include "vc4check.h"

struct linux_job;

/* Where Linux put the lists of the job that it accepted last, and how long they are. */
struct linux_lists {
    const uint8_t *bin, *records, *uniforms, *render;
    size_t bin_length, records_length, uniforms_length, render_length;
};

/* A job of a submission as Linux's driver has it before its checks: the call's argument, the buffers that were looked up, each shader as it was
 * checked when it was made, and a copy of the three lists; all of it in one piece of memory, behind that of the job before. Its lists are to lie
 * where vc4check_submit lays them. Null, and linux_said says why, where the driver wouldn't come to its checks. */
const struct linux_job *linux_job_of(const struct vc4check_submission *submission);

/* Checks the job and writes its lists: 0, or a negative number, and linux_said is the form of Linux's message. */
int linux_check(const struct linux_job *job, struct linux_lists *lists);

/* Makes the memory of the lists zero: Linux leaves the bytes between two records as they are. */
void linux_clear(void);

/* Checks a shader and forgets it. */
bool linux_shader(const uint8_t *code, size_t length);

/* The next so many bytes of one large piece of memory, at a multiple of 16; each side has its own. */
struct piece {
    uint8_t *at, *end;
};
void *room_in(struct piece *piece, size_t size);

extern const char *linux_said;

#endif
