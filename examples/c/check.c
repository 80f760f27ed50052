/* check FILE: checks a job file, and prints what `vc4check check` prints of it, and the facts of a refusal on standard error. Status 0: accepted,
 * 1: refused, 3: the file can't be read, 5: want of memory. */
#include <stdio.h>
#include <stdlib.h>
#include "vc4check.h"

static uint8_t *whole(const char *name, size_t *length) {
    FILE *file = fopen(name, "rb");
    if (!file) return NULL;
    size_t room = 1 << 16, got;
    uint8_t *bytes = malloc(room);
    *length = 0;
    while (bytes && (got = fread(bytes + *length, 1, room - *length, file)) > 0) {
        *length += got;
        if (*length == room) {
            uint8_t *more = realloc(bytes, room *= 2);
            if (!more) free(bytes);
            bytes = more;
        }
    }
    fclose(file);
    return bytes;
}

static void print_row(uint32_t place, const uint8_t *row) {
    uint8_t any = 0;
    for (int i = 0; i < 16; i++) any |= row[i];
    if (!any) return;
    printf("%08x ", place);
    for (int i = 0; i < 16; i++) printf("%02x", row[i]);
    putchar('\n');
}

static void print_job(const struct vc4check_job *job) {
    printf("bin %08x %u\n", job->lists + job->bin, job->bin_length);
    printf("records %08x %u\n", job->lists + job->records, job->records_length);
    printf("uniforms %08x %u\n", job->lists + job->uniforms, job->uniforms_length);
    printf("render %08x %u\n", job->lists + job->render, job->render_length);
    printf("slot %08x\n", job->slot);
}

/* A file of version 1 has one job, whose number isn't printed. The version is the file's fifth byte. */
static void print_accepted(const struct vc4check_answer *a, int version, const uint8_t *memory) {
    printf("accepted\nmemory %u\n", a->size);
    for (uint32_t j = 0; j < a->jobs; j++) {
        if (version != 1) printf("job %u\n", j);
        print_job(&a->job[j]);
    }
    for (uint32_t place = 0; place < a->size; place += 16) print_row(place, memory + place);
    puts("end");
}

/* What the file says where a rule refuses it. */
static void print_facts(const uint8_t *bytes, size_t length, const struct vc4check_answer *answer) {
    char text[256];
    size_t size;
    if (vc4check_facts(bytes, length, answer, text, sizeof text, &size) == VC4CHECK_ACCEPTED && size > 0) fprintf(stderr, "[%s]\n", text);
}

int main(int count, char **words) {
    size_t length = 0;
    uint8_t *bytes = count == 2 ? whole(words[1], &length) : NULL;
    if (!bytes || vc4check_version() != VC4CHECK_VERSION) return 3;
    uint8_t none, *block = NULL;
    struct vc4check_answer answer;
    uint32_t status = vc4check_check(bytes, length, &none, 0, &answer);
    if (status == VC4CHECK_SHORT) {
        block = malloc(answer.size);
        status = block ? vc4check_check(bytes, length, block, answer.size, &answer) : VC4CHECK_NO_MEMORY;
    }
    if (status == VC4CHECK_ACCEPTED) print_accepted(&answer, bytes[4], block);
    if (status == VC4CHECK_REFUSED) {
        printf("refused %c%u at %llu\n", (int)answer.letter, answer.number, (unsigned long long)answer.offset);
        print_facts(bytes, length, &answer);
    }
    free(block);
    free(bytes);
    return status > VC4CHECK_REFUSED ? 5 : (int)status;
}
