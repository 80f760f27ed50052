/* layout FILE: reads what each call tells at fixed offsets, without the header's structs, of a file of one accepted job with a shader. So a
 * field that moved, or two that changed places, in the library or in the header are found. Status 0: each is where it was. */
#include <stdio.h>
#include <stdlib.h>
#include <string.h>
#include "job_file.h"

static int wrong;
static uint8_t file[1 << 24], window[1 << 22];
static struct filled_submission filled;

static uint64_t read_at(const void *answer, size_t offset, size_t bytes) {
    uint64_t value = 0;
    memcpy(&value, (const uint8_t *)answer + offset, bytes);
    return value;
}

static void expect(const char *what, const void *answer, size_t offset, size_t bytes, uint64_t wanted) {
    uint64_t got = read_at(answer, offset, bytes);
    if (got == wanted) return;
    printf("%s: %llu at %zu, not %llu\n", what, (unsigned long long)got, offset, (unsigned long long)wanted);
    wrong = 1;
}

/* A file that ends before its header: F2 at 0. A file with a wrong version: F1 at 4. */
static void refused_files(size_t length) {
    _Alignas(8) uint8_t answer[512] = {0};
    vc4check_check(file, 0, window, 0, (struct vc4check_answer *)answer);
    expect("answer.letter", answer, 8, 4, 'F');
    expect("answer.number", answer, 12, 4, 2);
    file[4] = 9;
    vc4check_check(file, length, window, 0, (struct vc4check_answer *)answer);
    expect("answer.offset", answer, 0, 8, 4);
    expect("answer.number", answer, 12, 4, 1);
    file[4] = 1;
}

/* The renderer list is the last, and ends before the end by less than 16 bytes; the slot is where the file says. */
static void accepted_file(size_t length) {
    _Alignas(8) uint8_t answer[512] = {0};
    vc4check_check(file, length, window, 0, (struct vc4check_answer *)answer);
    expect("answer.size", answer, 16, 4, read_at(file, 8, 4));
    expect("answer.jobs", answer, 20, 4, 1);
    expect("job.lists", answer, 24, 4, read_at(file, 12, 4));
    expect("job.slot", answer, 28, 4, read_at(file, 20, 4));
    expect("job.bin", answer, 32, 4, 0);
    expect("job.render_length", answer, 64, 4, read_at(answer, 48, 4) - read_at(answer, 44, 4));
}

/* A file that ends before its header: F2. An accepted one, and its submission: the numbers of both are the same. */
static void bounds(size_t length) {
    _Alignas(8) uint8_t answer[64] = {0}, other[64] = {0};
    vc4check_bound(file, 0, (struct vc4check_bound_answer *)(void *)answer);
    expect("bound_answer.letter", answer, 48, 4, 'F');
    expect("bound_answer.number", answer, 52, 4, 2);
    vc4check_bound(file, length, (struct vc4check_bound_answer *)(void *)answer);
    vc4check_submission_bound(&filled.submission, (struct vc4check_bound_answer *)(void *)other);
    expect("bound_answer.letter", answer, 48, 4, 0);
    expect("bound_answer.steps_high", answer, 16, 8, 0);
    expect("bound_answer.loops", answer, 40, 4, 0);
    if (read_at(answer, 8, 8) == 0 || read_at(answer, 24, 8) < 2 || read_at(answer, 32, 8) == 0) wrong = 1;
    for (size_t field = 8; field < 56; field += 4) expect("bound_answer", other, field, 4, read_at(answer, field, 4));
}

/* The same job as a submission, and then with its handle 0 naming no buffer: H1 at handle 0; and with an unknown kind of buffer 1: F5. */
static void submissions(void) {
    _Alignas(8) uint8_t answer[512] = {0}, taken[512] = {0}, jobs[512] = {0};
    size_t length;
    struct vc4check_submission *s = &filled.submission;
    uint8_t *moved = job_file_of_submission(s, false, &length);
    vc4check_place(moved, length, window, sizeof window, (struct vc4check_answer *)jobs);
    vc4check_submit(s, window, sizeof window, (struct vc4check_verdict *)taken);
    expect("verdict.size", taken, 24, 4, read_at(jobs, 16, 4));
    for (size_t field = 0; field < 11; field++) expect("verdict.job", taken, 28 + 4 * field, 4, read_at(jobs, 24 + 4 * field, 4));
    uint32_t kept = filled.handles[1], kind = filled.buffers[1].kind;
    filled.handles[1] = 9999;
    vc4check_submit(s, window, sizeof window, (struct vc4check_verdict *)answer);
    expect("verdict.offset", answer, 0, 8, 4);
    expect("verdict.letter", answer, 8, 4, 'H');
    expect("verdict.number", answer, 12, 4, 1);
    expect("verdict.part", answer, 16, 4, 4);
    filled.handles[1] = kept;
    filled.buffers[1].kind = 7;
    vc4check_submit(s, window, sizeof window, (struct vc4check_verdict *)answer);
    expect("verdict.offset", answer, 0, 8, 12);
    expect("verdict.letter", answer, 8, 4, 'F');
    expect("verdict.number", answer, 12, 4, 5);
    expect("verdict.part", answer, 16, 4, 1);
    expect("verdict.index", answer, 20, 4, 1);
    filled.buffers[1].kind = kind;
    free(moved);
}

/* Seven instructions with one direct sample, whose positions are 1 and 0; and the first four of them: S2 at 4. */
static void shaders(void) {
    static const uint64_t code[] = {0xd0020827139c01c0, 0x1002082712827180, 0x10020e270c827180, 0xa00009e7009e7000, 0x300009e7009e7000,
                                    0x100009e7009e7000, 0x100009e7009e7000};
    _Alignas(8) uint8_t answer[64] = {0}, sample[20], made[16];
    struct vc4check_known known[2];
    uint32_t none;
    vc4check_shader(code, 7, (struct vc4check_sample *)(void *)sample, 1, &none, 0, (struct vc4check_shader_answer *)(void *)answer);
    expect("shader_answer.uniforms", answer, 8, 4, 2);
    expect("shader_answer.samples", answer, 16, 8, 1);
    expect("sample.positions[0]", sample, 0, 4, 1);
    expect("sample.positions[1]", sample, 4, 4, 0);
    expect("sample.direct", sample, 16, 4, 1);
    vc4check_shader(code, 4, (struct vc4check_sample *)(void *)sample, 0, &none, 0, (struct vc4check_shader_answer *)(void *)answer);
    expect("shader_answer.number", answer, 0, 4, 2);
    expect("shader_answer.index", answer, 4, 4, 4);
    vc4check_make_shader((const uint8_t *)code, sizeof code, known, 2, (struct vc4check_made *)(void *)made);
    expect("made.entries", made, 8, 8, 2);
    vc4check_make_shader((const uint8_t *)code, 32, known, 2, (struct vc4check_made *)(void *)made);
    expect("made.number", made, 0, 4, 2);
    expect("made.index", made, 4, 4, 4);
}

int main(int count, char **words) {
    FILE *from = count == 2 ? fopen(words[1], "rb") : NULL;
    if (!from) return 3;
    size_t length = fread(file, 1, sizeof file, from);
    fclose(from);
    if (!submission_of_job_file(file, length, 0xC0000000, &filled)) return 3;
    refused_files(length);
    accepted_file(length);
    bounds(length);
    submissions();
    shaders();
    if (!wrong) puts("each field is where it was");
    return wrong;
}
