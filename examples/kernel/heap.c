// SPDX-License-Identifier: MIT OR Apache-2.0
/* The allocator that the library asks for, over the kernel's. May sleep. examples/c/heap.c says what the three functions owe. */
#include <linux/log2.h>
#include <linux/mm.h>
#include <linux/mutex.h>
#include <linux/sched.h>
#include <linux/slab.h>
#include "heap.h"

struct tried {
	bool ok;
	void *block;
};

struct tried rattle_alloc(size_t size, size_t alignment);
struct tried rattle_realloc(void *block, size_t kept, size_t size, size_t alignment);
void rattle_dealloc(void *block);

/* The most that one block may have: the kernel warns of more than 2 GiB. What a job makes the checker take is far less. */
#define MOST (1ul << 30)

long heap_left = -1;
static atomic_long_t held;

long heap_held(void)
{
	return atomic_long_read(&held);
}

static bool may_take(size_t size)
{
	return size <= MOST && heap_left != 0 && (heap_left < 0 || heap_left--);
}

/* kmalloc aligns to 8, and a power of two to itself; vmalloc to a page. */
static void *block_of(size_t size, size_t alignment)
{
	size_t rounded = alignment > 8 && size < PAGE_SIZE ? roundup_pow_of_two(size | 16) : max_t(size_t, size, 1);

	return kvmalloc(rounded, GFP_KERNEL | __GFP_NOWARN);
}

/* The block of one task's, from which memory is taken upwards. What was taken last can grow in place. */
static struct {
	struct task_struct *task;
	u8 *end, *top, *last;
} over;
static DEFINE_MUTEX(over_lock);

void heap_over(void *block, size_t size)
{
	mutex_lock(&over_lock);
	over.top = block;
	over.end = over.top + size;
	over.last = NULL;
	WRITE_ONCE(over.task, current);
}

void heap_back(void)
{
	WRITE_ONCE(over.task, NULL);
	mutex_unlock(&over_lock);
}

static bool is_over(void)
{
	return READ_ONCE(over.task) == current;
}

/* The block from a place on, with that size. */
static void *reach(u8 *from, size_t size)
{
	if (size > over.end - from)
		return NULL;
	over.last = from;
	over.top = from + min_t(size_t, round_up(max_t(size_t, size, 1), 16), over.end - from);
	return from;
}

struct tried rattle_alloc(size_t size, size_t alignment)
{
	static char nothing[16];
	void *block = !may_take(size) ? NULL : is_over() ? reach(over.top, size) : block_of(size, alignment);

	if (block)
		atomic_long_inc(&held);
	return (struct tried){ block != NULL, block ? block : nothing };
}

struct tried rattle_realloc(void *block, size_t kept, size_t size, size_t alignment)
{
	struct tried moved;

	if (is_over() && block == over.last)
		return (struct tried){ may_take(size) && reach(block, size), block };
	moved = rattle_alloc(size, alignment);
	if (moved.ok) {
		memcpy(moved.block, block, min(kept, size));
		rattle_dealloc(block);
	}
	return moved;
}

void rattle_dealloc(void *block)
{
	atomic_long_dec(&held);
	if (!is_over())
		kvfree(block);
}
