// SPDX-License-Identifier: MIT OR Apache-2.0
#include "../c/arena_size.c"
