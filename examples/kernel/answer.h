/* SPDX-License-Identifier: MIT OR Apache-2.0 */
/* What the checker says of a job file, as text: the same from a kernel's module and from a program. */
#ifndef ANSWER_H
#define ANSWER_H

#include <stdbool.h>
#include <stddef.h>
#include <stdint.h>

/* Room that is enough for the text of every file. */
enum { ANSWER_ROOM = 4096 };

/* Puts into `text` what vc4check_check, vc4check_bound and vc4check_submit say of the job file. False where memory ran out. */
bool answer(const uint8_t *bytes, size_t length, char *text);

#endif
