/* times FILE COUNT: checks a job file so many times into one block, and prints the microseconds that one check takes, by the clock and
 * of processor time. Then the same of vc4check_place, of vc4check_submit with no shader made before, and of vc4check_submit with all made,
 * where the file has one job that can be moved up to addresses of the bus.
 *
 * times COUNT < LIST: goes so many times over the job files that standard input names, a line each, and hands each to vc4check_submit,
 * with no shader made before and then with all; prints jobs a second by processor time, and words a second of making the shaders. A COUNT of 0
 * prints a line for each file instead: 1 where it is accepted, else 0, and its name. Files that no submission is of are left out (job_file.h).
 * bench/driver runs it. */
#define _POSIX_C_SOURCE 199309L
#include <stdio.h>
#include <stdlib.h>
#include <string.h>
#include <time.h>
#include "job_file.h"

static uint8_t bytes[1 << 25];

static double now(clockid_t clock) {
    struct timespec t;
    clock_gettime(clock, &t);
    return (double)t.tv_sec * 1e6 + (double)t.tv_nsec / 1e3;
}

static struct filled_submission filled;
static uint8_t window[1 << 25];
static struct vc4check_known known[1 << 20];
static size_t taken; /* entries of it */

/* Makes a job's shaders, their blocks one after the other; says how many words they are. */
static size_t make_shaders(struct vc4check_buffer *buffers, size_t count) {
    size_t words = 0;
    struct vc4check_made made;
    for (size_t b = 0; b < count; b++) {
        struct vc4check_buffer *buffer = &buffers[b];
        if (buffer->kind != VC4CHECK_CODE) continue;
        words += buffer->length / 8;
        if (vc4check_make_shader(buffer->content, buffer->length, known + taken, sizeof known / sizeof *known - taken, &made) != 0) continue;
        buffer->known = known + taken;
        buffer->known_count = made.entries;
        taken += made.entries;
    }
    return words;
}

enum { CHECK, PLACE, SUBMIT, SUBMIT_UNMADE };
static const char *names[] = {"check", "place", "submit", "submit, no shader made before"};

/* So many calls of one kind, and what one took. */
static void measure(int call, const uint8_t *file, size_t length, uint8_t *block, uint32_t room, long calls) {
    struct vc4check_answer answer;
    struct vc4check_verdict verdict;
    uint32_t status = VC4CHECK_NO_MEMORY;
    double start = now(CLOCK_MONOTONIC), used = now(CLOCK_PROCESS_CPUTIME_ID);
    for (long i = 0; i < calls; i++) {
        if (call == CHECK) status = vc4check_check(file, length, block, room, &answer);
        else if (call == PLACE) status = vc4check_place(file, length, window, sizeof window, &answer);
        else status = vc4check_submit(&filled.submission, window, sizeof window, &verdict);
    }
    double each = (now(CLOCK_MONOTONIC) - start) / (double)calls, work = (now(CLOCK_PROCESS_CPUTIME_ID) - used) / (double)calls;
    printf("%s: status %u, %ld calls, %.2f microseconds each, %.2f of processor time\n", names[call], status, calls, each, work);
}

/* A job of a list, with its own arrays. */
struct job {
    struct vc4check_submission submission;
    struct vc4check_buffer *buffers;
};

static struct job *jobs;
static size_t job_count, left_out;

static void *copy_of(const void *from, size_t size) {
    void *copy = malloc(size ? size : 1);
    if (!copy) exit(5);
    return memcpy(copy, from, size);
}

/* False where no submission is of the file. */
static bool take_job(const char *name) {
    FILE *file = fopen(name, "rb");
    if (!file) exit(3);
    size_t length = fread(bytes, 1, sizeof bytes, file);
    fclose(file);
    uint8_t *kept = copy_of(bytes, length);
    if (!submission_of_job_file(kept, length, 0xC0000000, &filled)) {
        free(kept);
        left_out++;
        return false;
    }
    jobs = realloc(jobs, (job_count + 1) * sizeof *jobs);
    if (!jobs) exit(5);
    struct job *job = &jobs[job_count++];
    job->submission = filled.submission;
    job->buffers = copy_of(filled.buffers, filled.submission.buffer_count * sizeof *filled.buffers);
    job->submission.buffers = job->buffers;
    job->submission.handles = copy_of(filled.handles, filled.submission.handle_count * sizeof *filled.handles);
    return true;
}

/* Goes so many times over all jobs. */
static void submit_all(const char *what, long count) {
    struct vc4check_verdict verdict;
    size_t accepted = 0;
    double from = now(CLOCK_PROCESS_CPUTIME_ID);
    for (long i = 0; i < count; i++)
        for (size_t j = 0; j < job_count; j++) accepted += vc4check_submit(&jobs[j].submission, window, sizeof window, &verdict) == 0;
    double all = (double)count * (double)job_count, used = now(CLOCK_PROCESS_CPUTIME_ID) - from;
    printf("%s: %.0f jobs a second, %.2f microseconds each (%zu jobs, %zu accepted)\n", what, 1e6 * all / used, used / all, job_count,
           accepted / (size_t)count);
}

static int measure_list(long count) {
    static char name[4096];
    size_t words = 0;
    struct vc4check_verdict verdict;
    while (fgets(name, sizeof name, stdin)) {
        name[strcspn(name, "\n")] = 0;
        if (take_job(name) && count == 0)
            printf("%d %s\n", vc4check_submit(&jobs[job_count - 1].submission, window, sizeof window, &verdict) == VC4CHECK_ACCEPTED, name);
    }
    if (count == 0) return 0;
    if (job_count == 0) return 3;
    submit_all("not made", count);
    double from = now(CLOCK_PROCESS_CPUTIME_ID);
    for (long i = 0; i < count; i++) {
        taken = 0;
        for (size_t j = 0; j < job_count; j++) words += make_shaders(jobs[j].buffers, jobs[j].submission.buffer_count);
    }
    double used = now(CLOCK_PROCESS_CPUTIME_ID) - from;
    submit_all("made before", count);
    printf("shaders: %.2f million words a second (%zu words a job)\n", (double)words / used, words / job_count / (size_t)count);
    printf("left out: %zu files\n", left_out);
    return 0;
}

int main(int count, char **words) {
    if (count == 2) return measure_list(atol(words[1]));
    FILE *file = count == 3 ? fopen(words[1], "rb") : NULL;
    long calls = count == 3 ? atol(words[2]) : 0;
    if (!file || calls < 1) return 3;
    size_t length = fread(bytes, 1, sizeof bytes, file), moved_length = 0;
    fclose(file);
    struct vc4check_answer answer;
    uint32_t room = vc4check_check(bytes, length, window, 0, &answer) == VC4CHECK_SHORT ? answer.size : 0;
    uint8_t *block = malloc(room ? room : 1), *moved = NULL;
    if (!block) return 5;
    measure(CHECK, bytes, length, block, room, calls);
    if (submission_of_job_file(bytes, length, 0xC0000000, &filled)) {
        moved = job_file_of_submission(&filled.submission, false, &moved_length);
        if (!moved) return 5;
        measure(PLACE, moved, moved_length, block, room, calls);
        measure(SUBMIT_UNMADE, moved, moved_length, block, room, calls);
        make_shaders(filled.buffers, filled.submission.buffer_count);
        measure(SUBMIT, moved, moved_length, block, room, calls);
    }
    free(moved);
    free(block);
    return 0;
}
