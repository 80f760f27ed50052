/* What three files of Linux's vc4 driver (vc4_validate.c, vc4_validate_shaders.c, vc4_render_cl.c) and its header vc4_drv.h take from the rest
 * of the kernel, in user space. It is put before each of them (-include), and the kernel's headers that they name are empty files.
 *
 * Of structures that those files never look into there is the name alone, and of functions there are those that they call: memory is the C
 * library's, messages are dropped but for the last one's form, which linux_said keeps. */
#ifndef KERNEL_H
#define KERNEL_H

#include <errno.h>
#include <limits.h>
#include <linux/types.h>
#include <stdbool.h>
#include <stddef.h>
#include <stdint.h>
#include <stdlib.h>
#include <string.h>
#include <sys/types.h>

typedef uint8_t u8;
typedef uint16_t u16;
typedef uint32_t u32;
typedef uint64_t u64;
typedef int64_t s64, ktime_t;
typedef struct { int counter; } atomic_t, refcount_t;
typedef struct { int unused; } spinlock_t, wait_queue_head_t;
typedef int irqreturn_t;

#define NAME_ALONE(name) struct name { int unused; }
NAME_ALONE(work_struct);
NAME_ALONE(timer_list);
NAME_ALONE(mutex);
NAME_ALONE(idr);
NAME_ALONE(kref);
NAME_ALONE(dma_fence);
NAME_ALONE(debugfs_regset32);
NAME_ALONE(drm_mm);
NAME_ALONE(drm_mm_node);
NAME_ALONE(drm_modeset_lock);
NAME_ALONE(drm_private_obj);
NAME_ALONE(drm_plane);
NAME_ALONE(drm_plane_state);
NAME_ALONE(drm_encoder);
NAME_ALONE(drm_crtc);
NAME_ALONE(drm_crtc_state);
NAME_ALONE(of_device_id);
struct drm_atomic_state;
struct drm_crtc_funcs;
struct drm_crtc_helper_funcs;
struct drm_device;
struct drm_file;
struct drm_framebuffer;
struct drm_minor;
struct drm_mode_create_dumb;
struct drm_modeset_acquire_ctx;
struct drm_pending_vblank_event;
struct platform_device;
struct platform_driver;
struct seq_file;
enum drm_plane_type { NO_PLANE };

struct list_head { struct list_head *next, *prev; };

struct drm_device { int unused; };

struct drm_gem_object {
    struct drm_device *dev;
    size_t size;
};

struct drm_gem_dma_object {
    struct drm_gem_object base;
    uint64_t dma_addr;
    void *vaddr;
};

#define __iomem
#define ERESTARTSYS 512
#define GFP_KERNEL 0
#define container_of(at, type, member) ((type *)((char *)(at) - offsetof(type, member)))
#define to_drm_gem_dma_obj(at) container_of(at, struct drm_gem_dma_object, base)
#define list_empty(head) ((head)->next == (head))
#define list_first_entry_or_null(head, type, member) \
    (list_empty(head) ? NULL : container_of((head)->next, type, member))
#define list_last_entry(head, type, member) container_of((head)->prev, type, member)

#define ARRAY_SIZE(array) (sizeof(array) / sizeof *(array))
#define BIT(n) (1ul << (n))
#define GENMASK(high, low) ((2ul << (high)) - (1ul << (low)))
#define BITS_TO_LONGS(n) (((n) + sizeof(long) * CHAR_BIT - 1) / (sizeof(long) * CHAR_BIT))
#define DIV_ROUND_UP(n, unit) (((n) + (unit) - 1) / (unit))
#define roundup(n, unit) (((n) + (unit) - 1) / (unit) * (unit))
#define round_up(n, power) (((n) + (power) - 1) & -(power))
#define max(a, b) ({ __typeof__(a) max_a = (a); __typeof__(b) max_b = (b); max_a > max_b ? max_a : max_b; })
#define FIELD_SHIFT(mask) (__builtin_ffsll(mask) - 1)
#define FIELD_FIT(mask, value) (!(((__typeof__(mask))(value) << FIELD_SHIFT(mask)) & ~(mask)))
#define FIELD_PREP(mask, value) (((__typeof__(mask))(value) << FIELD_SHIFT(mask)) & (mask))
#define FIELD_GET(mask, word) ((__typeof__(mask))(((word) & (mask)) >> FIELD_SHIFT(mask)))

#define unlikely(what) __builtin_expect(!!(what), 0)
#define WARN_ON(what) ({ int wrong = !!(what); unlikely(wrong); })
#define WARN_ON_ONCE(what) WARN_ON(what)
#define BUG_ON(what) do { if (unlikely(what)) abort(); } while (0)
#define DRM_DEBUG(form, ...) ((void)(linux_said = (form)))
#define DRM_ERROR(form, ...) DRM_DEBUG(form)
#define DRM_INFO(form, ...) ((void)0)
#define IS_ERR(at) unlikely((unsigned long)(void *)(at) >= (unsigned long)-4095)
#define PTR_ERR(at) ((long)(at))
#define ERR_PTR(error) ((void *)(long)(error))

extern const char *linux_said;

static inline void set_bit(unsigned long n, unsigned long *bits) {
    bits[n / (sizeof(long) * CHAR_BIT)] |= 1ul << n % (sizeof(long) * CHAR_BIT);
}

static inline bool test_bit(unsigned long n, const unsigned long *bits) {
    return bits[n / (sizeof(long) * CHAR_BIT)] >> n % (sizeof(long) * CHAR_BIT) & 1;
}

static inline void list_add_tail(struct list_head *at, struct list_head *head) {
    at->next = head;
    at->prev = head->prev;
    head->prev->next = at;
    head->prev = at;
}

static inline void *kcalloc(size_t count, size_t size, int how) {
    (void)how;
    return calloc(count, size);
}

static inline void *krealloc(void *block, size_t size, int how) {
    (void)how;
    return realloc(block, size);
}

static inline void *krealloc_array(void *block, size_t count, size_t size, int how) {
    (void)how;
    return realloc(block, count * size);
}

static inline void kfree(void *block) {
    free(block);
}

#endif
