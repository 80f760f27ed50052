/* From a submission to a job file, which the program checks and runs, and back. */
#ifndef JOB_FILE_H
#define JOB_FILE_H

#include <stdbool.h>
#include "vc4check.h"

/* The job file of a submission, of version 2. With `packed` its memory begins at 0, and holds the lists' region, the tile slot and then the
 * buffers one after the other, so that a job of any addresses fits a file's memory; else all lies where the submission has it. The file is
 * the caller's, who frees it. Null where memory ran out. */
uint8_t *job_file_of_submission(const struct vc4check_submission *submission, bool packed, size_t *length);

/* Where in that file the place of a refusal is. */
uint64_t place_in_job_file(const struct vc4check_submission *submission, const struct vc4check_verdict *verdict);

/* A submission with room for what it points to. */
struct filled_submission {
    struct vc4check_submission submission;
    struct vc4check_buffer buffers[1024];
    uint32_t handles[1024];
};

/* Fills a submission from a job file of one job, with all its places moved up by so many bytes; the file has to stay. False where that
 * can't be: where the file isn't whole, has several jobs or other than one tile slot, more than its version's limit of buffers or handles, a
 * place over 64 MiB that would be moved, or contents of a data buffer past its end. */
bool submission_of_job_file(const uint8_t *bytes, size_t length, uint32_t moved, struct filled_submission *into);

#endif
