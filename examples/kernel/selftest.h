/* SPDX-License-Identifier: MIT OR Apache-2.0 */
/* The examples, which the module has in it, checked as it is loaded. */
#ifndef SELFTEST_H
#define SELFTEST_H

#include <linux/types.h>

/* Whether each is accepted, also where each allocation in turn has failed before; and then nothing was changed or kept. */
bool selftest(void);

#endif
