/* The kernel has its own. */
#include <linux/stddef.h>
#include <linux/types.h>
