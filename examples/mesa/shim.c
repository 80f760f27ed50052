/* A preload library that plays the render node of a VideoCore IV processor for Mesa's vc4 driver, on a machine that has none, and puts
 * each job of the program that runs through the checker: vc4check_make_shader where it makes a shader, vc4check_submit where it submits.
 * Nothing is drawn: a job is checked and then counts as done.
 *
 * Environment: VC4CHECK_SAVE=FOLDER  writes each job as a job file, FOLDER/PID-NUMBER.vc4j, and beside it, .answer, what the call said of it
 *              VC4CHECK_STRICT=1     refuses a refused job with EINVAL, as the kernel does
 *              VC4CHECK_QUIET=1      no line for an accepted job
 *              VC4CHECK_MOST=N       ends the program at its Nth job
 */
#define _GNU_SOURCE
#include <dlfcn.h>
#include <errno.h>
#include <fcntl.h>
#include <stdarg.h>
#include <stdbool.h>
#include <stdio.h>
#include <stdlib.h>
#include <string.h>
#include <sys/ioctl.h>
#include <sys/mman.h>
#include <sys/stat.h>
#include <sys/sysmacros.h>
#include <time.h>
#include <unistd.h>
#include <xf86drm.h>
#include <vc4_drm.h>
#include "../c/job_file.h"
#include "../c/linux_submit.h"

enum { PAGE = 4096, MOST_BUFFERS = 1 << 16, CLIENT = 1 };

/* The bus as on a Raspberry Pi: buffers from 0xC0000000 on, and behind them a window for the lists and a tile slot. */
static const uint32_t FIRST = 0xC0000000, WINDOW = 0xFE000000, SLOT = 0xFE400000, END = 0xFF000000;

/* A buffer lies at address - FIRST of one sparse file, which is what a program maps. */
struct buffer {
    struct submit_buffer report;
    uint64_t tiling;
    bool live;
};

static struct buffer buffers[MOST_BUFFERS]; /* by GEM handle, from 1 on */
static uint32_t most_handle;
static uint32_t taken; /* bytes from FIRST on */
static uint8_t *window;
static int memory = -1;
static unsigned shaders, jobs, accepted, refused;
static double seconds;
static struct { char rule[8]; unsigned count; } why[32];

/* The device is /dev/full, a character device that nobody else opens: so every copy of its descriptor is known by its number. */
static bool is_device(int fd) {
    struct stat about;
    return fd >= 0 && fstat(fd, &about) == 0 && S_ISCHR(about.st_mode) && about.st_rdev == makedev(1, 7);
}

static uint32_t new_buffer(uint64_t size) {
    if (memory < 0) {
        memory = memfd_create("vc4", MFD_CLOEXEC);
        if (memory < 0 || ftruncate(memory, (off_t)(WINDOW - FIRST)) < 0) return 0;
    }
    size = (size + PAGE - 1) / PAGE * PAGE;
    for (uint32_t handle = 1; handle <= most_handle; handle++) {
        if (buffers[handle].live || buffers[handle].report.size != size) continue;
        fallocate(memory, FALLOC_FL_PUNCH_HOLE | FALLOC_FL_KEEP_SIZE, (off_t)(buffers[handle].report.address - FIRST), (off_t)size);
        buffers[handle].live = true;
        return handle;
    }
    if (size == 0 || size > WINDOW - FIRST - taken || most_handle + 1 == MOST_BUFFERS) return 0;
    struct buffer *buffer = &buffers[++most_handle];
    *buffer = (struct buffer){.report = {.address = FIRST + taken, .size = (uint32_t)size}, .live = true};
    taken += (uint32_t)size;
    return most_handle;
}

static struct buffer *buffer_of(uint32_t handle) {
    return handle >= 1 && handle <= most_handle && buffers[handle].live ? &buffers[handle] : NULL;
}

static void drop(struct buffer *buffer) {
    free((void *)buffer->report.shader);
    free((void *)buffer->report.known);
    buffer->report.shader = NULL;
    buffer->report.known = NULL;
    buffer->live = false;
}

static int make_buffer(struct drm_vc4_create_bo *asked) {
    asked->handle = new_buffer(asked->size);
    return asked->handle ? 0 : -ENOMEM;
}

static void tell_rule(const char *what, unsigned number, uint32_t letter, uint32_t rule, const char *place) {
    char sentence[VC4CHECK_SENTENCE_ROOM];
    vc4check_sentence(letter, rule, sentence, sizeof sentence);
    fprintf(stderr, "vc4check: %s %u: refused %c%u: %s (%s)\n", what, number, (int)letter, rule, sentence, place);
}

/* What is to be kept of a shader; null where memory ran out. A refused shader, or one that is too long, is kept with no entry: the job
 * that names it is refused. */
static struct vc4check_known *know(const uint8_t *shader, size_t length, size_t *entries) {
    struct vc4check_known none, *block = NULL;
    struct vc4check_made made = {0};
    char place[32];
    uint32_t status = vc4check_make_shader(shader, length, &none, 0, &made);
    shaders++;
    if (status == VC4CHECK_NO_MEMORY) return NULL;
    if (status == VC4CHECK_REFUSED) {
        snprintf(place, sizeof place, "instruction %u", made.index);
        tell_rule("shader", shaders, 'S', made.number, place);
    }
    *entries = status == VC4CHECK_SHORT ? made.entries : 0;
    block = malloc((*entries + 1) * sizeof *block);
    if (block && *entries) status = vc4check_make_shader(shader, length, block, *entries, &made);
    return block;
}

static int make_shader(struct drm_vc4_create_shader_bo *asked) {
    uint8_t *shader = malloc(asked->size ? asked->size : 1);
    if (!shader) return -ENOMEM;
    memcpy(shader, (const void *)(uintptr_t)asked->data, asked->size);
    size_t entries = 0;
    struct vc4check_known *known = know(shader, asked->size, &entries);
    uint32_t handle = known ? new_buffer(asked->size) : 0;
    if (!handle) return free(known), free(shader), -ENOMEM;
    struct submit_buffer *report = &buffers[handle].report;
    report->shader = shader;
    report->shader_length = asked->size;
    report->known = known;
    report->known_count = entries;
    asked->handle = handle;
    return 0;
}

static int tell(struct drm_vc4_get_param *asked) {
    static const uint64_t values[] = {
        [DRM_VC4_PARAM_V3D_IDENT0] = 0x02443356, [DRM_VC4_PARAM_V3D_IDENT1] = 0x11303431, [DRM_VC4_PARAM_V3D_IDENT2] = 0,
        [DRM_VC4_PARAM_SUPPORTS_BRANCHES] = 1, [DRM_VC4_PARAM_SUPPORTS_ETC1] = 1, [DRM_VC4_PARAM_SUPPORTS_THREADED_FS] = 1,
        [DRM_VC4_PARAM_SUPPORTS_FIXED_RCL_ORDER] = 0, [DRM_VC4_PARAM_SUPPORTS_MADVISE] = 1, [DRM_VC4_PARAM_SUPPORTS_PERFMON] = 0,
    };
    if (asked->param >= sizeof values / sizeof *values) return -EINVAL;
    asked->value = values[asked->param];
    return 0;
}

static const struct submit_buffer *look_up(void *known, uint32_t handle) {
    (void)known;
    struct buffer *buffer = buffer_of(handle);
    return buffer ? &buffer->report : NULL;
}

static bool write_whole(const char *name, const void *bytes, size_t length) {
    FILE *into = fopen(name, "wb");
    bool whole = into && fwrite(bytes, 1, length, into) == length;
    if (into && fclose(into) != 0) whole = false;
    if (!whole) fprintf(stderr, "vc4check: %s can't be written\n", name);
    return whole;
}

/* The job as a file, and beside it the first line that `vc4check check` prints of that file. */
static void save(const struct vc4check_submission *submission, uint32_t status, const struct vc4check_verdict *verdict) {
    const char *folder = getenv("VC4CHECK_SAVE");
    char name[4096], report[64] = "accepted\n";
    size_t length;
    if (!folder) return;
    uint8_t *file = job_file_of_submission(submission, true, &length);
    if (!file) return;
    if (status == VC4CHECK_REFUSED)
        snprintf(report, sizeof report, "refused %c%u at %llu\n", (int)verdict->letter, verdict->number,
                 (unsigned long long)place_in_job_file(submission, verdict));
    snprintf(name, sizeof name, "%s/%d-%05u.vc4j", folder, (int)getpid(), jobs);
    write_whole(name, file, length);
    strcpy(strrchr(name, '.'), ".answer");
    write_whole(name, report, strlen(report));
    free(file);
}

static void count_rule(const struct vc4check_verdict *verdict) {
    char rule[8];
    snprintf(rule, sizeof rule, "%c%u", (int)verdict->letter, verdict->number);
    for (size_t i = 0; i < sizeof why / sizeof *why; i++) {
        if (why[i].count && strcmp(why[i].rule, rule) != 0) continue;
        strcpy(why[i].rule, rule);
        why[i].count++;
        return;
    }
}

static void tell_refused(const struct vc4check_verdict *verdict) {
    static const char *parts[] = {
        [VC4CHECK_OF_MEMORY] = "memory", [VC4CHECK_OF_BUFFER] = "buffer", [VC4CHECK_OF_JOB] = "job", [VC4CHECK_OF_CONTENT] = "shader of buffer",
        [VC4CHECK_OF_HANDLES] = "handles", [VC4CHECK_OF_BIN] = "binner list", [VC4CHECK_OF_RECORDS] = "shader records", [VC4CHECK_OF_UNIFORMS] = "uniforms",
    };
    bool of_buffer = verdict->part == VC4CHECK_OF_BUFFER || verdict->part == VC4CHECK_OF_CONTENT;
    char place[64];
    if (of_buffer) snprintf(place, sizeof place, "%s %u, byte %u", parts[verdict->part], verdict->index, (unsigned)verdict->offset);
    else snprintf(place, sizeof place, "%s, byte %u", parts[verdict->part], (unsigned)verdict->offset);
    tell_rule("job", jobs, verdict->letter, verdict->number, place);
}

/* What the kernel says of a checked job. The program goes on as if it had run. */
static int judge(uint32_t status, const struct vc4check_verdict *verdict) {
    if (status == VC4CHECK_NO_MEMORY) return -ENOMEM;
    if (status != VC4CHECK_REFUSED) {
        accepted++;
        if (!getenv("VC4CHECK_QUIET")) fprintf(stderr, "vc4check: job %u: accepted\n", jobs);
        return 0;
    }
    refused++;
    count_rule(verdict);
    tell_refused(verdict);
    return getenv("VC4CHECK_STRICT") ? -EINVAL : 0;
}

static uint32_t check(const struct vc4check_submission *submission, struct vc4check_verdict *verdict) {
    struct timespec from, to;
    clock_gettime(CLOCK_THREAD_CPUTIME_ID, &from);
    uint32_t status = vc4check_submit(submission, window, SLOT - WINDOW, verdict);
    clock_gettime(CLOCK_THREAD_CPUTIME_ID, &to);
    seconds += (double)(to.tv_sec - from.tv_sec) + 1e-9 * (double)(to.tv_nsec - from.tv_nsec);
    return status;
}

__attribute__((destructor)) static void sum_up(void) {
    if (!jobs) return;
    fprintf(stderr, "vc4check: %u jobs, %u accepted, %u refused", jobs, accepted, refused);
    for (size_t i = 0; i < sizeof why / sizeof *why && why[i].count; i++) fprintf(stderr, "%s%s %u times", i ? ", " : " (", why[i].rule, why[i].count);
    fprintf(stderr, "%s, %.0f microseconds a job\n", why[0].count ? ")" : "", 1e6 * seconds / jobs);
}

static int submit(struct drm_vc4_submit_cl *asked) {
    struct vc4check_submission submission;
    struct vc4check_verdict verdict = {0};
    size_t count = asked->bo_handle_count ? asked->bo_handle_count : 1;
    struct vc4check_buffer *entries = malloc(count * sizeof *entries);
    uint32_t *handles = malloc(count * sizeof *handles), status = VC4CHECK_NO_MEMORY;
    if (!window) window = malloc(SLOT - WINDOW);
    asked->seqno = ++jobs;
    if (entries && handles && window) {
        submission_of_submit(asked, CLIENT, look_up, NULL, entries, handles, &submission);
        submission.end = END;
        submission.lists = WINDOW;
        submission.lists_size = SLOT - WINDOW;
        submission.slot = SLOT;
        status = check(&submission, &verdict);
        save(&submission, status, &verdict);
    }
    free(entries);
    free(handles);
    const char *most = getenv("VC4CHECK_MOST");
    int answer = judge(status, &verdict);
    if (most && jobs >= strtoul(most, NULL, 10)) sum_up(), _exit(0);
    return answer;
}

static int tell_version(struct drm_version *asked) {
    struct { char *into; __kernel_size_t *length; const char *text; } parts[] = {
        {asked->name, &asked->name_len, "vc4"}, {asked->date, &asked->date_len, "20140616"}, {asked->desc, &asked->desc_len, "vc4 by vc4check"}};
    for (int i = 0; i < 3; i++) {
        size_t length = strlen(parts[i].text);
        if (parts[i].into) memcpy(parts[i].into, parts[i].text, length < *parts[i].length ? length : *parts[i].length);
        *parts[i].length = length;
    }
    asked->version_major = asked->version_minor = asked->version_patchlevel = 0;
    return 0;
}

static int of_buffer(unsigned long request, void *argument) {
    struct drm_vc4_mmap_bo *map = argument;
    struct drm_vc4_get_tiling *tiling = argument;
    struct drm_gem_close *closed = argument;
    bool tiles = request == DRM_IOCTL_VC4_GET_TILING || request == DRM_IOCTL_VC4_SET_TILING;
    struct buffer *buffer = buffer_of(request == DRM_IOCTL_GEM_CLOSE ? closed->handle : tiles ? tiling->handle : map->handle);
    if (!buffer) return -ENOENT;
    if (request == DRM_IOCTL_GEM_CLOSE) drop(buffer);
    else if (request == DRM_IOCTL_VC4_MMAP_BO) map->offset = buffer->report.address - FIRST;
    else if (request == DRM_IOCTL_VC4_SET_TILING) buffer->tiling = tiling->modifier;
    else tiling->modifier = buffer->tiling;
    return 0;
}

static int answer(unsigned long request, void *argument) {
    switch (request) {
    case DRM_IOCTL_VERSION: return tell_version(argument);
    case DRM_IOCTL_GET_CAP: return ((struct drm_get_cap *)argument)->value = 0, 0;
    case DRM_IOCTL_VC4_GET_PARAM: return tell(argument);
    case DRM_IOCTL_VC4_CREATE_BO: return make_buffer(argument);
    case DRM_IOCTL_VC4_CREATE_SHADER_BO: return make_shader(argument);
    case DRM_IOCTL_VC4_MMAP_BO:
    case DRM_IOCTL_VC4_SET_TILING:
    case DRM_IOCTL_VC4_GET_TILING:
    case DRM_IOCTL_GEM_CLOSE: return of_buffer(request, argument);
    case DRM_IOCTL_VC4_GEM_MADVISE: return ((struct drm_vc4_gem_madvise *)argument)->retained = 1, 0;
    case DRM_IOCTL_VC4_SUBMIT_CL: return submit(argument);
    case DRM_IOCTL_VC4_WAIT_SEQNO:
    case DRM_IOCTL_VC4_WAIT_BO:
    case DRM_IOCTL_VC4_LABEL_BO: return 0;
    default: return -EINVAL;
    }
}

int ioctl(int fd, unsigned long request, ...) {
    static int (*real)(int, unsigned long, ...);
    va_list rest;
    va_start(rest, request);
    void *argument = va_arg(rest, void *);
    va_end(rest);
    if (!real) real = (int (*)(int, unsigned long, ...))dlsym(RTLD_NEXT, "ioctl");
    if (!is_device(fd)) return real(fd, request, argument);
    int status = answer(request, argument);
    if (status == 0) return 0;
    errno = -status;
    return -1;
}

void *mmap(void *at, size_t length, int protection, int flags, int fd, off_t offset) {
    static void *(*real)(void *, size_t, int, int, int, off_t);
    if (!real) real = (void *(*)(void *, size_t, int, int, int, off_t))dlsym(RTLD_NEXT, "mmap");
    return real(at, length, protection, flags, is_device(fd) ? memory : fd, offset);
}

void *mmap64(void *at, size_t length, int protection, int flags, int fd, off_t offset) {
    return mmap(at, length, protection, flags, fd, offset);
}

/* /dev/dri/renderD128 and /dev/dri/card0 are the device. */
int open(const char *name, int flags, ...) {
    static int (*real)(const char *, int, ...);
    va_list rest;
    va_start(rest, flags);
    mode_t mode = flags & (O_CREAT | O_TMPFILE) ? va_arg(rest, mode_t) : 0;
    va_end(rest);
    if (!real) real = (int (*)(const char *, int, ...))dlsym(RTLD_NEXT, "open");
    return real(strncmp(name, "/dev/dri/", 9) == 0 ? "/dev/full" : name, flags, mode);
}

int open64(const char *name, int flags, ...) {
    va_list rest;
    va_start(rest, flags);
    mode_t mode = flags & (O_CREAT | O_TMPFILE) ? va_arg(rest, mode_t) : 0;
    va_end(rest);
    return open(name, flags, mode);
}

/* What libdrm would find in /sys: one platform device. */
static drmDevicePtr the_device(void) {
    static char card[] = "/dev/dri/card0", render[] = "/dev/dri/renderD128";
    static char *nodes[DRM_NODE_MAX] = {[DRM_NODE_PRIMARY] = card, [DRM_NODE_RENDER] = render};
    static drmPlatformBusInfo bus = {"vc4"};
    static drmPlatformDeviceInfo info;
    static drmDevice device = {.nodes = nodes, .available_nodes = 1 << DRM_NODE_PRIMARY | 1 << DRM_NODE_RENDER, .bustype = DRM_BUS_PLATFORM};
    device.businfo.platform = &bus;
    device.deviceinfo.platform = &info;
    return &device;
}

int drmGetDevice2(int fd, uint32_t flags, drmDevicePtr *found) {
    (void)flags;
    if (!is_device(fd)) return -ENODEV;
    *found = the_device();
    return 0;
}

int drmGetDevice(int fd, drmDevicePtr *found) {
    return drmGetDevice2(fd, 0, found);
}

int drmGetDevices2(uint32_t flags, drmDevicePtr found[], int most) {
    (void)flags;
    if (found && most > 0) found[0] = the_device();
    return 1;
}

void drmFreeDevice(drmDevicePtr *device) {
    *device = NULL;
}

void drmFreeDevices(drmDevicePtr devices[], int count) {
    (void)devices, (void)count;
}

int drmDevicesEqual(drmDevicePtr one, drmDevicePtr other) {
    return one == other;
}

int drmGetNodeTypeFromFd(int fd) {
    return is_device(fd) ? DRM_NODE_RENDER : -1;
}
