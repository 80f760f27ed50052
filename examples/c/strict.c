/* strict FILE..: prints what vc4check_place says of each job file, in the words of the first line of `vc4check check --strict`. Where it is
 * accepted, and one job with a binner list, that is submitted too, with its tile slot up to a multiple of 256 MiB and across one: E12 refuses
 * only the second, at the slot. Status 0: so it is. */
#include <stdio.h>
#include <stdlib.h>
#include "job_file.h"

enum { SLOT = 524288, PAGE = 4096 };
static const uint32_t BOUNDARY = 0xD0000000, END = 0xD0100000;
static uint8_t bytes[1 << 25], window[1 << 25];
static struct filled_submission filled;

static uint32_t submit_with(uint32_t slot, struct vc4check_verdict *verdict) {
    filled.submission.slot = slot;
    return vc4check_submit(&filled.submission, window, sizeof window, verdict);
}

static bool refuses_crossing(size_t length) {
    struct vc4check_verdict verdict;
    if (!submission_of_job_file(bytes, length, 0xC0000000, &filled) || filled.submission.bin_length == 0) return true;
    filled.submission.end = END;
    return submit_with(BOUNDARY - SLOT, &verdict) == VC4CHECK_ACCEPTED
        && submit_with(BOUNDARY - SLOT + PAGE, &verdict) == VC4CHECK_REFUSED && verdict.letter == 'E' && verdict.number == 12
        && verdict.part == VC4CHECK_OF_MEMORY && verdict.offset == 20;
}

int main(int count, char **words) {
    for (int i = 1; i < count; i++) {
        FILE *file = fopen(words[i], "rb");
        if (!file) return 3;
        size_t length = fread(bytes, 1, sizeof bytes, file);
        fclose(file);
        struct vc4check_answer answer;
        uint32_t status = vc4check_place(bytes, length, window, sizeof window, &answer);
        if (status == VC4CHECK_ACCEPTED) puts("accepted");
        else if (status == VC4CHECK_REFUSED) printf("refused %c%u at %llu\n", (char)answer.letter, answer.number, (unsigned long long)answer.offset);
        else return 5;
        if (status == VC4CHECK_ACCEPTED && !refuses_crossing(length)) {
            printf("%s: a slot across a multiple of 256 MiB isn't reported\n", words[i]);
            return 1;
        }
    }
    return 0;
}
