// SPDX-License-Identifier: MIT OR Apache-2.0
/*
 * The checker in place of the validators and the list builder of Linux's driver (6.1): the four functions by which the driver calls those, under their
 * names. `vc4` beside this file compiles it with the driver's other files, of which none changes.
 *
 * What the driver keeps to already, and the proof asks of it: buffers, window and slot are held until the job is done, or the chip is reset; no
 * client has a window, nor may write a shader's buffer, which has zeros behind the shader; what is checked are copies.
 */
#include "vc4_drv.h"
#include "arena.h"
#include "heap.h"
#include "linux_submit.h"

/* The first address behind the memory that a job may name. */
#define MEMORY_END 0xFF000000u

enum { MOST_LISTS = 64 << 20, MOST_HANDLES = 1024, CLIENT = 1 };

static size_t length_without_zeros(const u64 *words, size_t size)
{
	size_t count = size / 8;

	while (count && !words[count - 1])
		count--;
	return 8 * count;
}

/* The block that the checker makes of a shader is kept where the driver keeps, and frees, what its own validator makes: as the samples. */
struct vc4_validated_shader_info *vc4_validate_shader(struct drm_gem_dma_object *object)
{
	struct vc4_validated_shader_info *shader = kzalloc(sizeof(*shader), GFP_KERNEL);
	size_t length = length_without_zeros(object->vaddr, object->base.size);
	struct vc4check_known none, *block = NULL;
	struct vc4check_made made;

	if (vc4check_make_shader(object->vaddr, length, &none, 0, &made) == VC4CHECK_SHORT)
		block = kmalloc_array(made.entries, sizeof(*block), GFP_KERNEL);
	if (!shader || !block || vc4check_make_shader(object->vaddr, length, block, made.entries, &made) != VC4CHECK_ACCEPTED) {
		kfree(block);
		kfree(shader);
		return NULL;
	}
	shader->texture_samples = (struct vc4_texture_sample_info *)block;
	shader->num_texture_samples = made.entries;
	shader->uniforms_src_size = length;
	return shader;
}

/* The buffer that look_up answers with, until it is called again. */
struct looked_up {
	struct vc4_exec_info *exec;
	struct submit_buffer buffer;
};

static const struct submit_buffer *look_up(void *known, uint32_t handle)
{
	struct looked_up *looked_up = known;
	struct drm_gem_dma_object *object = looked_up->exec->bo[handle];
	const struct vc4_validated_shader_info *shader = to_vc4_bo(&object->base)->validated_shader;

	looked_up->buffer = (struct submit_buffer){ .address = object->dma_addr, .size = object->base.size };
	if (shader) {
		looked_up->buffer.shader = object->vaddr;
		looked_up->buffer.shader_length = shader->uniforms_src_size;
		looked_up->buffer.known = (const struct vc4check_known *)shader->texture_samples;
		looked_up->buffer.known_count = shader->num_texture_samples;
	}
	return &looked_up->buffer;
}

/* Room for the lists of the job, where it is accepted; docs/LIBRARY.md has the sum. 0 where it is too much. */
static u32 lists_size(const struct vc4check_submission *submission)
{
	const struct vc4check_frame *frame = &submission->frame;
	u64 wide = max(frame->max_x_tile - frame->min_x_tile + 1, 0), high = max(frame->max_y_tile - frame->min_y_tile + 1, 0);
	u64 size = round_up((u64)submission->bin_length, 16) + round_up((u64)submission->records_length, 16);

	size += round_up((u64)submission->uniforms_length, 16) + 11 + 24 + 60 * wide * high;
	return size > MOST_LISTS ? 0 : PAGE_ALIGN(size);
}

/* A window for the lists, which the driver gives back with the job, and a tile slot. */
static int make_room(struct drm_device *dev, struct vc4_exec_info *exec, struct vc4check_submission *submission, struct vc4_bo **window)
{
	struct vc4_dev *vc4 = to_vc4_dev(dev);
	int slot, status = vc4_v3d_bin_bo_get(vc4, &exec->bin_bo_used);

	if (status)
		return status;
	slot = vc4_v3d_get_bin_slot(vc4);
	if (slot < 0)
		return slot;
	exec->bin_slots |= BIT(slot);
	*window = vc4_bo_create(dev, submission->lists_size, true, VC4_BO_TYPE_RCL);
	if (IS_ERR(*window))
		return PTR_ERR(*window);
	list_add_tail(&(*window)->unref_head, &exec->unref_list);
	submission->lists = (*window)->base.dma_addr;
	submission->slot = vc4->bin_bo->base.dma_addr + slot * vc4->bin_alloc_size;
	return 0;
}

/* What the driver wants to know beside the lists: which buffers the job writes, and what was written last of those that it reads. */
static void note_accesses(struct vc4_exec_info *exec)
{
	const struct drm_vc4_submit_cl *args = exec->args;
	u32 written[] = { args->color_write.hindex, args->zs_write.hindex, args->msaa_color_write.hindex, args->msaa_zs_write.hindex };

	for (size_t i = 0; i < ARRAY_SIZE(written); i++)
		if (written[i] < exec->bo_count)
			exec->rcl_write_bo[exec->rcl_write_bo_count++] = exec->bo[written[i]];
	for (u32 b = 0; b < exec->bo_count; b++)
		exec->bin_dep_seqno = max(exec->bin_dep_seqno, to_vc4_bo(&exec->bo[b]->base)->write_seqno);
}

static void note_lists(struct vc4_exec_info *exec, const struct vc4check_job *job)
{
	exec->ct0ca = job->lists + job->bin;
	exec->ct0ea = exec->ct0ca + job->bin_length;
	exec->ct1ca = job->lists + job->render;
	exec->ct1ea = exec->ct1ca + job->render_length;
}

/* The call, with all its memory taken before. */
static u32 call(const struct vc4check_submission *submission, void *window, struct vc4check_verdict *verdict)
{
	size_t size = arena_for_submit(submission);
	void *block = kvmalloc(size, GFP_KERNEL);
	u32 status = VC4CHECK_NO_MEMORY;

	if (block) {
		heap_over(block, size);
		status = vc4check_submit(submission, window, submission->lists_size, verdict);
		heap_back();
	}
	kvfree(block);
	return status;
}

static int submit(struct drm_device *dev, struct vc4_exec_info *exec, struct vc4check_submission *submission)
{
	char sentence[VC4CHECK_SENTENCE_ROOM];
	struct vc4check_verdict verdict;
	struct vc4_bo *window;
	int status;

	submission->end = MEMORY_END;
	submission->lists_size = lists_size(submission);
	if (!submission->lists_size)
		return -EINVAL;
	status = make_room(dev, exec, submission, &window);
	if (status)
		return status;
	status = call(submission, window->base.vaddr, &verdict);
	if (status == VC4CHECK_NO_MEMORY)
		return -ENOMEM;
	if (status != VC4CHECK_ACCEPTED) {
		vc4check_sentence(verdict.letter, verdict.number, sentence, sizeof(sentence));
		DRM_DEBUG("%c%u: part %u index %u at %llu: %s\n", verdict.letter, verdict.number, verdict.part, verdict.index, verdict.offset, sentence);
		return -EINVAL;
	}
	note_lists(exec, &verdict.job);
	note_accesses(exec);
	return 0;
}

/* The ioctl's argument with the driver's copies in place of the client's lists. A job without a binner list has no other either. */
static struct drm_vc4_submit_cl with_copies(const struct vc4_exec_info *exec, const u32 *numbers)
{
	struct drm_vc4_submit_cl submit = *exec->args;

	submit.bo_handles = (uintptr_t)numbers;
	submit.bin_cl = (uintptr_t)exec->bin_u;
	submit.shader_rec = (uintptr_t)exec->shader_rec_u;
	submit.uniforms = (uintptr_t)exec->uniforms_u;
	if (!exec->bin_u)
		submit.bin_cl_size = submit.shader_rec_size = submit.uniforms_size = submit.shader_rec_count = 0;
	return submit;
}

/* The whole job. Its handles are their own numbers in exec->bo. More than the rules take are not even looked at. */
static int check(struct drm_device *dev, struct vc4_exec_info *exec)
{
	struct looked_up looked_up = { .exec = exec };
	struct vc4check_submission submission;
	struct vc4check_buffer *buffers;
	struct drm_vc4_submit_cl copies;
	u32 *handles, *numbers;
	int status = -ENOMEM;

	if (exec->bo_count > MOST_HANDLES)
		return -EINVAL;
	buffers = kvcalloc(exec->bo_count, sizeof(*buffers), GFP_KERNEL);
	handles = kvcalloc(exec->bo_count, 2 * sizeof(*handles), GFP_KERNEL);
	if (buffers && handles) {
		numbers = handles + exec->bo_count;
		for (u32 b = 0; b < exec->bo_count; b++)
			numbers[b] = b;
		copies = with_copies(exec, numbers);
		submission_of_submit(&copies, CLIENT, look_up, &looked_up, buffers, handles, &submission);
		status = submit(dev, exec, &submission);
	}
	kvfree(handles);
	kvfree(buffers);
	return status;
}

int vc4_validate_bin_cl(struct drm_device *dev, void *validated, void *unvalidated, struct vc4_exec_info *exec)
{
	return check(dev, exec);
}

int vc4_validate_shader_recs(struct drm_device *dev, struct vc4_exec_info *exec)
{
	return 0; /* the whole job is checked */
}

/* The driver asks for the renderer list of each job, and for the others first only where there is a binner list. */
int vc4_get_rcl(struct drm_device *dev, struct vc4_exec_info *exec)
{
	return exec->args->bin_cl_size ? 0 : check(dev, exec);
}
