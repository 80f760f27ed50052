/* Calls Linux's checks as vc4_submit_cl_ioctl does (vc4_gem.c): with the structures that they read, and without what comes before and after
 * them: no buffer is looked up or locked, nothing is copied from the client, and nothing is queued. The lists go into static memory, as into
 * the window of the other side, and the state of a job (struct vc4_exec_info) is taken by calloc and given back, as the kernel does. */
#include <stdio.h>
#include <sys/mman.h>
#include "vc4/vc4_drv.h"
#include "side.h"

enum { SLOT = 524288, MOST_STATES = 1 << 16, MOST_SHADER = 1 << 20, MOST_CLEARED = 1 << 21 };

struct linux_job {
    struct drm_vc4_submit_cl args;
    struct drm_gem_dma_object **bo; /* by handle, and a null pointer behind them */
    uint8_t *lists;                 /* binner list, shader records, uniforms */
    uint32_t records_at, uniforms_at;
    uint32_t address, records_address, uniforms_address, slot;
};

const char *linux_said = "";
static struct vc4_bo slots, lists, render;
static struct vc4_dev device = {.bin_bo = &slots, .bin_alloc_size = SLOT};
static uint8_t slot_room[SLOT], lists_room[1 << 25], render_room[1 << 24];
static struct vc4_shader_state states[MOST_STATES];
static struct piece memory;

_Static_assert(sizeof(struct vc4check_frame) == offsetof(struct drm_vc4_submit_cl, flags) - offsetof(struct drm_vc4_submit_cl, width), "one copy");

void *room_in(struct piece *piece, size_t size) {
    if (!piece->at) {
        size_t whole = (size_t)1 << 32;
        piece->at = mmap(NULL, whole, PROT_READ | PROT_WRITE, MAP_PRIVATE | MAP_ANONYMOUS | MAP_NORESERVE, -1, 0);
        if (piece->at == MAP_FAILED) exit(5);
        piece->end = piece->at + whole;
    }
    size = (size + 15) / 16 * 16;
    if (size > (size_t)(piece->end - piece->at)) exit(5);
    piece->at += size;
    return piece->at - size;
}

/* The one tile slot: the job before is done. */
int vc4_v3d_get_bin_slot(struct vc4_dev *vc4) {
    (void)vc4;
    return 0;
}

struct vc4_bo *vc4_bo_create(struct drm_device *dev, size_t size, bool allow_unzeroed, enum vc4_kernel_bo_type type) {
    (void)dev, (void)allow_unzeroed, (void)type;
    if (size > sizeof render_room) return ERR_PTR(-ENOMEM);
    render.base.base.size = size;
    return &render;
}

static void set_up(void) {
    slots.base = (struct drm_gem_dma_object){.base = {&device.base, SLOT}, .vaddr = slot_room};
    lists.base = (struct drm_gem_dma_object){.base = {&device.base, sizeof lists_room}, .vaddr = lists_room};
    render.base = (struct drm_gem_dma_object){.base = {&device.base, sizeof render_room}, .vaddr = render_room};
}

/* A shader's buffer has whole pages, and zeros behind the shader. */
static struct vc4_validated_shader_info *checked(const uint8_t *code, size_t length) {
    static _Alignas(8) uint8_t room[MOST_SHADER];
    struct drm_gem_dma_object object = {.base = {&device.base, (length + 4095) / 4096 * 4096}, .vaddr = room};
    if (length > MOST_SHADER) return linux_said = "too long for the yardstick", NULL;
    memcpy(room, code, length);
    memset(room + length, 0, object.base.size - length);
    return vc4_validate_shader(&object);
}

static void forget(struct vc4_validated_shader_info *info) {
    free(info->texture_samples);
    free(info->uniform_addr_offsets);
    free(info);
}

bool linux_shader(const uint8_t *code, size_t length) {
    struct vc4_validated_shader_info *info = checked(code, length);
    if (info) forget(info);
    return info != NULL;
}

static void *copied(const void *from, size_t size) {
    void *into = room_in(&memory, size);
    return size ? memcpy(into, from, size) : into;
}

/* What was found out about a shader, in the job's memory. */
static struct vc4_validated_shader_info *kept(struct vc4_validated_shader_info *info) {
    struct vc4_validated_shader_info *into = copied(info, sizeof *info);
    into->texture_samples = copied(info->texture_samples, info->num_texture_samples * sizeof *info->texture_samples);
    into->uniform_addr_offsets = copied(info->uniform_addr_offsets, info->num_uniform_addr_offsets * sizeof *info->uniform_addr_offsets);
    forget(info);
    return into;
}

static struct vc4_bo *object_of(const struct vc4check_buffer *buffer) {
    struct vc4_bo *object = room_in(&memory, sizeof *object);
    object->base = (struct drm_gem_dma_object){.base = {&device.base, buffer->size}, .dma_addr = buffer->address};
    if (buffer->kind != VC4CHECK_CODE) return object;
    struct vc4_validated_shader_info *info = checked(buffer->content, buffer->length);
    if (!info) return NULL;
    object->validated_shader = kept(info);
    return object;
}

/* The buffers by handle; false where the client has none of that number, or its shader was refused when it was made. */
static bool look_up(const struct vc4check_submission *s, struct linux_job *job) {
    job->bo = room_in(&memory, (s->handle_count + 1) * sizeof *job->bo);
    struct vc4_bo **objects = calloc(s->buffer_count + 1, sizeof *objects);
    bool all = objects != NULL && s->handle_count > 0;
    linux_said = "no buffer of that number";
    for (size_t h = 0; all && h < s->handle_count; h++) {
        uint32_t b = s->handles[h];
        if (b >= s->buffer_count || s->buffers[b].client != s->client) all = false;
        else if (!objects[b]) objects[b] = object_of(&s->buffers[b]);
        if (all && !objects[b]) all = false;
        if (all) job->bo[h] = &objects[b]->base;
    }
    free(objects);
    job->bo[s->handle_count] = NULL;
    return all;
}

const struct linux_job *linux_job_of(const struct vc4check_submission *s) {
    if (!lists.base.vaddr) set_up();
    struct linux_job *job = room_in(&memory, sizeof *job);
    job->args = (struct drm_vc4_submit_cl){.bin_cl_size = (uint32_t)s->bin_length, .shader_rec_size = (uint32_t)s->records_length,
        .shader_rec_count = s->states, .uniforms_size = (uint32_t)s->uniforms_length, .bo_handle_count = (uint32_t)s->handle_count};
    memcpy(&job->args.width, &s->frame, sizeof s->frame);
    job->args.flags = s->flags;
    job->records_at = (uint32_t)roundup(s->bin_length, 16);
    job->uniforms_at = job->records_at + (uint32_t)s->records_length;
    job->address = s->lists;
    job->records_address = s->lists + job->records_at;
    job->uniforms_address = job->records_address + (uint32_t)roundup(s->records_length, 16);
    job->slot = s->slot;
    if (!look_up(s, job)) return NULL;
    job->lists = room_in(&memory, job->uniforms_at + s->uniforms_length);
    memcpy(job->lists, s->bin, s->bin_length);
    memcpy(job->lists + job->records_at, s->records, s->records_length);
    memcpy(job->lists + job->uniforms_at, s->uniforms, s->uniforms_length);
    linux_said = "too large for the yardstick";
    return s->states <= MOST_STATES && job->uniforms_at + s->uniforms_length < sizeof lists_room ? job : NULL;
}

void linux_clear(void) {
    memset(lists_room, 0, MOST_CLEARED);
}

/* As vc4_get_bcl does from where the client's lists are copied. */
static int check_lists(const struct linux_job *job, struct vc4_exec_info *exec) {
    exec->exec_bo = &lists.base;
    exec->bin_u = job->lists;
    exec->shader_rec_u = job->lists + job->records_at;
    exec->uniforms_u = job->lists + job->uniforms_at;
    exec->shader_state = states;
    exec->shader_state_size = job->args.shader_rec_count;
    exec->ct0ca = job->address;
    exec->shader_rec_v = lists_room + job->records_at;
    exec->shader_rec_p = job->records_address;
    exec->shader_rec_size = job->args.shader_rec_size;
    exec->uniforms_v = lists_room + job->uniforms_at;
    exec->uniforms_p = job->uniforms_address;
    exec->uniforms_size = job->args.uniforms_size;
    int status = vc4_validate_bin_cl(&device.base, lists_room, exec->bin_u, exec);
    return status ? status : vc4_validate_shader_recs(&device.base, exec);
}

int linux_check(const struct linux_job *job, struct linux_lists *into) {
    struct vc4_exec_info *exec = calloc(1, sizeof *exec);
    if (!exec) return -ENOMEM;
    exec->dev = &device;
    exec->args = (struct drm_vc4_submit_cl *)&job->args;
    exec->bo = job->bo;
    exec->bo_count = job->args.bo_handle_count;
    exec->unref_list = (struct list_head){&exec->unref_list, &exec->unref_list};
    slots.base.dma_addr = job->slot;
    int status = job->args.bin_cl_size ? check_lists(job, exec) : 0;
    if (!status) status = vc4_get_rcl(&device.base, exec);
    if (!status)
        *into = (struct linux_lists){.bin = lists_room, .records = lists_room + job->records_at, .uniforms = lists_room + job->uniforms_at,
            .render = render_room, .bin_length = exec->ct0ea - exec->ct0ca,
            .records_length = exec->bin_u ? exec->shader_rec_p - job->records_address : 0,
            .uniforms_length = exec->bin_u ? exec->uniforms_p - job->uniforms_address : 0, .render_length = exec->ct1ea - exec->ct1ca};
    free(exec);
    return status;
}
