// SPDX-License-Identifier: MIT OR Apache-2.0
#include <linux/kernel.h>
#include <linux/ktime.h>
#include <linux/mm.h>
#include <linux/module.h>
#include <linux/slab.h>
#include "../c/arena.h"
#include "../c/job_file.h"
#include "heap.h"
#include "jobs.h" /* made by `jobs`: struct { const char *name; const u8 *bytes; size_t length; } jobs[] */
#include "selftest.h"

static uint times;
module_param(times, uint, 0444);
MODULE_PARM_DESC(times, "how many calls of each kind are timed for each example, of which the quickest is reported");

enum { WINDOW = 1 << 20, KNOWN = 4096, UNSET = 0xa5 };

/* A job, and what a call on it writes. */
struct test {
	const u8 *bytes;
	size_t length;
	struct filled_submission filled;
	struct vc4check_known known[KNOWN];
	union {
		struct vc4check_answer file;
		struct vc4check_verdict submission;
		struct vc4check_made shader;
	} report;
	u8 window[WINDOW];
};

typedef u32 call(struct test *test);

static u32 check(struct test *test)
{
	u32 status = vc4check_check(test->bytes, test->length, test->window, 0, &test->report.file);

	return status == VC4CHECK_SHORT ? VC4CHECK_ACCEPTED : status;
}

static u32 submit(struct test *test)
{
	return vc4check_submit(&test->filled.submission, test->window, WINDOW, &test->report.submission);
}

/* Makes the first of the job's shaders that has no block. */
static u32 make_shader(struct test *test)
{
	struct vc4check_known *free = test->known;
	u32 status = VC4CHECK_ACCEPTED;

	for (size_t b = 0; b < test->filled.submission.buffer_count; b++) {
		struct vc4check_buffer *buffer = &test->filled.buffers[b];

		free += buffer->known_count;
		if (buffer->kind != VC4CHECK_CODE || buffer->known_count)
			continue;
		status = vc4check_make_shader(buffer->content, buffer->length, free, test->known + KNOWN - free, &test->report.shader);
		if (status != VC4CHECK_ACCEPTED)
			break;
		buffer->known = free;
		buffer->known_count = test->report.shader.entries;
		break;
	}
	return status;
}

/* Fails each allocation of a call in turn, and then none; says how many there are, or -1 where the call didn't end as it has to. */
static long starved(call *one, struct test *test)
{
	long before = heap_held();

	for (long n = 0;; n++) {
		u32 status;

		memset(&test->report, UNSET, sizeof(test->report));
		memset(test->window, UNSET, WINDOW);
		heap_left = n;
		status = one(test);
		heap_left = -1;
		if (heap_held() != before)
			return -1;
		if (status != VC4CHECK_NO_MEMORY)
			return status == VC4CHECK_ACCEPTED ? n : -1;
		if (memchr_inv(&test->report, UNSET, sizeof(test->report)) || memchr_inv(test->window, UNSET, WINDOW))
			return -1;
	}
}

static bool test_call(const char *name, const char *what, call *one, struct test *test)
{
	long allocations = starved(one, test);
	u64 best = U64_MAX;

	for (uint i = 0; i < times; i++) {
		u64 from = ktime_get_ns();

		one(test);
		best = min(best, ktime_get_ns() - from);
	}
	pr_info("vc4check: %s %s: %ld allocations failed in turn, %llu ns\n", name, what, allocations, times ? best : 0);
	return allocations >= 0;
}

/* The same submission with all memory from one block, of the size that is reported. */
static bool test_in_room(const char *name, struct test *test)
{
	size_t size = arena_for_submit(&test->filled.submission);
	void *block = kvmalloc(size, GFP_KERNEL);
	u64 best = U64_MAX;
	bool well = block;

	for (uint i = 0; well && i <= times; i++) {
		u64 from = ktime_get_ns();

		heap_over(block, size);
		well = submit(test) == VC4CHECK_ACCEPTED;
		heap_back();
		best = min(best, ktime_get_ns() - from);
	}
	kvfree(block);
	pr_info("vc4check: %s submit in a block of %zu bytes: %llu ns\n", name, size, best);
	return well && !heap_held();
}

static bool test_job(const char *name, struct test *test)
{
	bool well = test_call(name, "check", check, test);

	if (!submission_of_job_file(test->bytes, test->length, 0xC0000000, &test->filled))
		return well;
	well = well && test_call(name, "submit, no shader made before", submit, test);
	for (size_t b = 0; b < test->filled.submission.buffer_count; b++)
		well = well && starved(make_shader, test) >= 0;
	return well && test_call(name, "submit", submit, test) && test_in_room(name, test);
}

bool selftest(void)
{
	struct test *test = kvzalloc(sizeof(*test), GFP_KERNEL);
	bool well = test;

	for (size_t j = 0; well && j < ARRAY_SIZE(jobs); j++) {
		test->bytes = jobs[j].bytes;
		test->length = jobs[j].length;
		well = test_job(jobs[j].name, test);
	}
	kvfree(test);
	return well;
}
