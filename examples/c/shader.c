/* shader: reads shaders from standard input, a line each: words in hexadecimal, then a colon. Lines that begin with # are skipped.
 * For each other line it prints what the checker says. */
#include <stdio.h>
#include <stdlib.h>
#include "vc4check.h"

#define MOST 8192

static char line[1 << 18];
static uint64_t code[MOST + 1];
static struct vc4check_sample samples[MOST];
static uint32_t address_words[MOST];

static size_t read_words(char *at) {
    size_t words = 0;
    for (char *end; words <= MOST; at = end) {
        uint64_t word = strtoull(at, &end, 16);
        if (end == at) break;
        code[words++] = word;
    }
    return words;
}

static void print_info(const struct vc4check_shader_answer *answer) {
    printf("ok uniforms %u threaded %u address [", answer->uniforms, answer->threaded);
    for (size_t i = 0; i < answer->address_words; i++) printf("%s%u", i ? ", " : "", address_words[i]);
    printf("] samples ");
    for (size_t i = 0; i < answer->samples; i++) {
        printf("%s%c[", i ? " " : "", samples[i].direct ? 'd' : 't');
        for (int k = 0; k < 4 && samples[i].positions[k] != VC4CHECK_NO_POSITION; k++)
            printf("%s%u", k ? ", " : "", samples[i].positions[k]);
        putchar(']');
    }
    putchar('\n');
}

int main(void) {
    while (fgets(line, sizeof line, stdin)) {
        if (line[0] == '#') continue;
        struct vc4check_shader_answer answer;
        uint32_t status = vc4check_shader(code, read_words(line), samples, MOST, address_words, MOST, &answer);
        if (status == VC4CHECK_ACCEPTED) print_info(&answer);
        else if (status == VC4CHECK_REFUSED) printf("fault S%u at %u\n", answer.number, answer.index);
        else if (status == VC4CHECK_TOO_LONG) puts("too long");
        else return 5;
    }
    return 0;
}
