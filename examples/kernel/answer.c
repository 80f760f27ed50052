// SPDX-License-Identifier: MIT OR Apache-2.0
#include "../c/job_file.h"
#include "answer.h"

#ifdef __KERNEL__
#include <linux/kernel.h>
#else
#include <stdarg.h>
#include <stdio.h>
#define vscnprintf vsnprintf
#endif
#include <stdlib.h>

enum { WINDOW = 8 << 20 };

struct text {
	char *at;
	size_t room;
};

static void say(struct text *text, const char *form, ...)
{
	va_list words;
	int said;

	va_start(words, form);
	said = vscnprintf(text->at, text->room, form, words);
	va_end(words);
	text->at += said;
	text->room -= said;
}

/* A sum over bytes (FNV-1a), in place of the bytes. */
static unsigned long long sum_of(const uint8_t *bytes, size_t count)
{
	unsigned long long sum = 0xcbf29ce484222325ull;

	for (size_t i = 0; i < count; i++)
		sum = (sum ^ bytes[i]) * 0x100000001b3ull;
	return sum;
}

static void say_refusal(struct text *text, uint32_t letter, uint32_t number, uint64_t offset)
{
	char sentence[VC4CHECK_SENTENCE_ROOM];

	vc4check_sentence(letter, number, sentence, sizeof(sentence));
	say(text, "refused %c%u at %llu: %s\n", (int)letter, number, (unsigned long long)offset, sentence);
}

static void say_job(struct text *text, const struct vc4check_job *job)
{
	say(text, "bin %08x %u records %08x %u ", job->lists + job->bin, job->bin_length, job->lists + job->records, job->records_length);
	say(text, "uniforms %08x %u render %08x %u ", job->lists + job->uniforms, job->uniforms_length, job->lists + job->render, job->render_length);
	say(text, "slot %08x\n", job->slot);
}

static uint32_t say_check(const uint8_t *bytes, size_t length, struct text *text)
{
	struct vc4check_answer report;
	uint8_t none, *block = NULL;
	uint32_t status = vc4check_check(bytes, length, &none, 0, &report);

	if (status == VC4CHECK_SHORT) {
		block = malloc(report.size);
		status = block ? vc4check_check(bytes, length, block, report.size, &report) : VC4CHECK_NO_MEMORY;
	}
	if (status == VC4CHECK_ACCEPTED) {
		say(text, "accepted %u sum %016llx\n", report.size, sum_of(block, report.size));
		for (uint32_t j = 0; j < report.jobs; j++)
			say_job(text, &report.job[j]);
	}
	if (status == VC4CHECK_REFUSED)
		say_refusal(text, report.letter, report.number, report.offset);
	free(block);
	return status;
}

static uint32_t say_bound(const uint8_t *bytes, size_t length, struct text *text)
{
	struct vc4check_bound_answer report;
	uint32_t status = vc4check_bound(bytes, length, &report);

	if (status == VC4CHECK_ACCEPTED)
		say(text, "bound %llu %llu stay %llu items %llu loops %u waits %u at %llu\n", (unsigned long long)report.steps_high,
		    (unsigned long long)report.steps_low, (unsigned long long)report.stay, (unsigned long long)report.items, report.loops,
		    report.waits, (unsigned long long)report.offset);
	return status;
}

static uint32_t say_submit(const struct vc4check_submission *submission, struct text *text)
{
	struct vc4check_verdict report;
	uint8_t *window = malloc(WINDOW);
	uint32_t status = window ? vc4check_submit(submission, window, WINDOW, &report) : VC4CHECK_NO_MEMORY;

	if (status == VC4CHECK_ACCEPTED) {
		say(text, "submit accepted %u sum %016llx\n", report.size, sum_of(window, report.size));
		say_job(text, &report.job);
	}
	if (status == VC4CHECK_REFUSED) {
		say(text, "submit part %u index %u ", report.part, report.index);
		say_refusal(text, report.letter, report.number, report.offset);
	}
	free(window);
	return status;
}

bool answer(const uint8_t *bytes, size_t length, char *start)
{
	struct text text = { start, ANSWER_ROOM };
	struct filled_submission *filled = malloc(sizeof(*filled));
	bool done = filled && say_check(bytes, length, &text) != VC4CHECK_NO_MEMORY && say_bound(bytes, length, &text) != VC4CHECK_NO_MEMORY;

	if (done && submission_of_job_file(bytes, length, 0xC0000000, filled))
		done = say_submit(&filled->submission, &text) != VC4CHECK_NO_MEMORY;
	free(filled);
	return done;
}
