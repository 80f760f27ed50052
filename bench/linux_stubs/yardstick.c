/* yardstick RUNS CALLS < LIST: checks jobs with vc4check_submit, their shaders made before, and with Linux's checker, in one process by turns.
 * A line of LIST is a group, a tab and the name of a job file; a group's lines stand together. Prints, fields parted by tabs:
 *
 *   other FILE OURS LINUX                                   a job on which the two verdicts differ
 *   lists FILE PART                                         a job that both accept with other lists
 *   group NAME JOBS BOTH SAME HEAD TILES WORDS LEFT         of its jobs how many both accept; of these those whose renderer lists are the same, and
 *                                                           those that differ at their head alone; tiles and shader words of all that both accept;
 *                                                           files that no submission is of
 *   run NAME OURS LINUX                                     microseconds of processor time a job, for each of RUNS
 *   shaders OURS LINUX                                      million words a second of making all shaders, for each of RUNS
 *
 * Both sides read data of their own, a job's beside each other and behind that of the job before. Only jobs that both accept are timed: a group in
 * turns of at least CALLS calls. Which side begins changes with each run. */
#define _GNU_SOURCE
#include <setjmp.h>
#include <signal.h>
#include <stdio.h>
#include <stdlib.h>
#include <string.h>
#include <time.h>
#include "job_file.h"
#include "side.h"

struct job {
    const struct vc4check_submission *ours;
    const struct linux_job *theirs;
};

struct group {
    char name[256];
    size_t first, count; /* of its jobs that are timed */
    size_t jobs, same, head, tiles, words, left;
};

static struct job *jobs;
static size_t job_count;
static struct group *groups;
static size_t group_count;
static struct vc4check_buffer *shaders; /* of all jobs, as the files have them */
static size_t shader_count;
static struct piece memory;
static struct filled_submission filled;
static uint8_t window[1 << 25];
static struct vc4check_known known[1 << 16];
static struct vc4check_verdict verdict;
static struct linux_lists theirs;
static volatile size_t accepted;

static double now(void) {
    struct timespec t;
    clock_gettime(CLOCK_PROCESS_CPUTIME_ID, &t);
    return (double)t.tv_sec * 1e6 + (double)t.tv_nsec / 1e3;
}

static void *grown(void *block, size_t count, size_t size) {
    if (count & (count - 1)) return block;
    block = realloc(block, (count ? 2 * count : 1) * size);
    if (!block) exit(5);
    return block;
}

static void *copied(const void *from, size_t size) {
    void *into = room_in(&memory, size ? size : 1);
    return size ? memcpy(into, from, size) : into;
}

/* Makes a buffer's shader, and keeps what it made in the job's memory. */
static void make(struct vc4check_buffer *buffer) {
    struct vc4check_made made = {0};
    buffer->known_count = 0;
    if (buffer->kind == VC4CHECK_CODE
        && vc4check_make_shader(buffer->content, buffer->length, known, sizeof known / sizeof *known, &made) == VC4CHECK_ACCEPTED)
        buffer->known_count = made.entries;
    buffer->known = copied(known, buffer->known_count * sizeof *known);
}

/* The submission with all that it points to, but for the shaders themselves. */
static const struct vc4check_submission *kept(const struct vc4check_submission *from) {
    struct vc4check_submission *s = copied(from, sizeof *from);
    struct vc4check_buffer *buffers = copied(from->buffers, from->buffer_count * sizeof *from->buffers);
    s->buffers = buffers;
    s->handles = copied(from->handles, from->handle_count * sizeof *from->handles);
    for (size_t b = 0; b < s->buffer_count; b++) make(&buffers[b]);
    s->bin = copied(from->bin, from->bin_length);
    s->records = copied(from->records, from->records_length);
    s->uniforms = copied(from->uniforms, from->uniforms_length);
    return s;
}

static const uint8_t *whole(const char *name, size_t *length) {
    FILE *file = fopen(name, "rb");
    if (!file) exit(3);
    fseek(file, 0, SEEK_END);
    long size = ftell(file);
    rewind(file);
    uint8_t *bytes = malloc(size > 0 ? (size_t)size : 1);
    if (!bytes) exit(5);
    *length = fread(bytes, 1, size > 0 ? (size_t)size : 0, file);
    fclose(file);
    return bytes;
}

static sigjmp_buf back;

static void fell(int signal) {
    siglongjmp(back, signal);
}

/* Linux's verdict; where it follows a bad pointer, that is one. */
static int linux_verdict(const struct vc4check_submission *s, const struct linux_job **job) {
    if (sigsetjmp(back, 1)) {
        linux_said = "it follows a bad pointer";
        return -1;
    }
    *job = linux_job_of(s);
    linux_clear();
    return *job ? linux_check(*job, &theirs) : -1;
}

static bool same(const uint8_t *one, size_t length, const uint8_t *other, size_t other_length) {
    return length == other_length && memcmp(one, other, length) == 0;
}

/* Whether the renderer lists differ at their head alone: Linux puts the packets of the clear values, of 24 bytes, before the configuration, of
 * 11 bytes, whose last two are the bits of a colour write, also of an absent one. */
static bool same_but_for_head(const struct vc4check_submission *s, const uint8_t *ours, size_t length) {
    size_t clear = s->flags & VC4CHECK_CLEARS ? 24 : 0, bits = s->frame.color_write.handle == UINT32_MAX ? 2 : 0;
    return length == theirs.render_length && memcmp(ours, theirs.render + clear, 11 - bits) == 0 && memcmp(ours + 11, theirs.render, clear) == 0
        && memcmp(ours + 11 + clear, theirs.render + 11 + clear, length - 11 - clear) == 0;
}

static void compare(const char *name, const struct vc4check_submission *s, struct group *group) {
    const struct vc4check_job *at = &verdict.job;
    const uint8_t *render = window + at->render;
    if (!same(window + at->bin, at->bin_length, theirs.bin, theirs.bin_length)) printf("lists\t%s\tbinner list\n", name);
    if (!same(window + at->records, at->records_length, theirs.records, theirs.records_length)) printf("lists\t%s\trecords\n", name);
    if (!same(window + at->uniforms, at->uniforms_length, theirs.uniforms, theirs.uniforms_length)) printf("lists\t%s\tuniforms\n", name);
    if (same(render, at->render_length, theirs.render, theirs.render_length)) group->same++;
    else if (same_but_for_head(s, render, at->render_length)) group->head++;
    else printf("lists\t%s\trenderer list\n", name);
}

static void tell_other(const char *name, uint32_t status, int other) {
    char ours[64] = "accepted", text[256];
    if (status) snprintf(ours, sizeof ours, "status %u, %c%u", status, verdict.letter ? (int)verdict.letter : '?', verdict.number);
    snprintf(text, sizeof text, "%s", other ? linux_said : "accepted");
    for (char *at = text; *at; at++)
        if (*at == '\n') *at = ' ';
    printf("other\t%s\t%s\t%s\n", name, ours, text);
}

static void count_job(const struct vc4check_submission *s, struct group *group) {
    const struct vc4check_frame *f = &s->frame;
    group->tiles += (size_t)(f->max_x_tile - f->min_x_tile + 1) * (size_t)(f->max_y_tile - f->min_y_tile + 1);
    for (size_t b = 0; b < s->buffer_count; b++) {
        if (s->buffers[b].kind != VC4CHECK_CODE) continue;
        group->words += s->buffers[b].length / 8;
        shaders = grown(shaders, shader_count, sizeof *shaders);
        shaders[shader_count++] = s->buffers[b];
    }
}

static void take_job(const char *name, struct group *group) {
    size_t length;
    const uint8_t *bytes = whole(name, &length);
    if (!submission_of_job_file(bytes, length, 0xC0000000, &filled)) {
        group->left++;
        return;
    }
    struct job job = {kept(&filled.submission), NULL};
    uint32_t status = vc4check_submit(job.ours, window, sizeof window, &verdict);
    int other = linux_verdict(&filled.submission, &job.theirs);
    group->jobs++;
    if ((status == 0) != (other == 0)) tell_other(name, status, other);
    if (status || other) return;
    compare(name, &filled.submission, group);
    count_job(job.ours, group);
    jobs = grown(jobs, job_count, sizeof *jobs);
    jobs[job_count++] = job;
    group->count++;
}

static void take_all(void) {
    static char line[8192];
    while (fgets(line, sizeof line, stdin)) {
        line[strcspn(line, "\n")] = 0;
        char *name = strchr(line, '\t');
        if (!name) exit(3);
        *name++ = 0;
        if (!group_count || strncmp(groups[group_count - 1].name, line, sizeof groups->name - 1) != 0) {
            groups = grown(groups, group_count, sizeof *groups);
            groups[group_count] = (struct group){.first = job_count};
            memcpy(groups[group_count++].name, line, strnlen(line, sizeof groups->name - 1));
        }
        take_job(name, &groups[group_count - 1]);
    }
}

/* The two that a profile counts. */
__attribute__((noinline)) void pass_ours(const struct job *from, size_t count) {
    for (size_t j = 0; j < count; j++) accepted += vc4check_submit(from[j].ours, window, sizeof window, &verdict) == 0;
}

__attribute__((noinline)) void pass_linux(const struct job *from, size_t count) {
    for (size_t j = 0; j < count; j++) accepted += linux_check(from[j].theirs, &theirs) == 0;
}

/* Microseconds a job of one side. */
static double timed(void pass(const struct job *, size_t), const struct group *group, size_t calls) {
    size_t turns = (calls + group->count - 1) / group->count;
    double from = now();
    for (size_t turn = 0; turn < turns; turn++) pass(jobs + group->first, group->count);
    return (now() - from) / (double)(turns * group->count);
}

static void time_group(const struct group *group, size_t calls, bool ours_first) {
    double ours = ours_first ? timed(pass_ours, group, calls) : 0, linux_time = timed(pass_linux, group, calls);
    if (!ours_first) ours = timed(pass_ours, group, calls);
    printf("run\t%s\t%.4f\t%.4f\n", group->name, ours, linux_time);
}

static void time_shaders(void) {
    struct vc4check_made made;
    size_t words = 0;
    double from = now();
    for (size_t b = 0; b < shader_count; b++) {
        words += shaders[b].length / 8;
        vc4check_make_shader(shaders[b].content, shaders[b].length, known, sizeof known / sizeof *known, &made);
    }
    double between = now();
    for (size_t b = 0; b < shader_count; b++) accepted += linux_shader(shaders[b].content, shaders[b].length);
    printf("shaders\t%.3f\t%.3f\n", (double)words / (between - from), (double)words / (now() - between));
}

int main(int count, char **words) {
    if (count != 3) return 3;
    long runs = atol(words[1]), calls = atol(words[2]);
    struct sigaction action = {.sa_handler = fell, .sa_flags = SA_NODEFER};
    sigaction(SIGSEGV, &action, NULL);
    take_all();
    action.sa_handler = SIG_DFL;
    sigaction(SIGSEGV, &action, NULL);
    for (size_t g = 0; g < group_count; g++)
        printf("group\t%s\t%zu\t%zu\t%zu\t%zu\t%zu\t%zu\t%zu\n", groups[g].name, groups[g].jobs, groups[g].count, groups[g].same, groups[g].head,
               groups[g].tiles, groups[g].words, groups[g].left);
    for (long run = 0; run < runs; run++) {
        for (size_t g = 0; g < group_count; g++)
            if (groups[g].count) time_group(&groups[g], (size_t)calls, run % 2 == 0);
        if (shader_count && calls > 1) time_shaders();
    }
    return 0;
}
