/* bare < FILE: checks a job file with no C library at all, prints the verdict, and then how much memory the call took from the
 * caller's block and how much stack. Linux, x86-64 or AArch64; only `call_kernel` and `_start` know of it. Status as of check.c. */
#include "arena.h"
#include "vc4check.h"

static unsigned char input[24 << 20], block[64 << 20] __attribute__((aligned(16)));
unsigned char stack[1 << 16] __attribute__((aligned(16)));

void *memmove(void *to, const void *from, size_t size) {
    unsigned char *into = to;
    const unsigned char *out = from;
    if (into < out) for (size_t i = 0; i < size; i++) into[i] = out[i];
    else for (size_t i = size; i > 0; i--) into[i - 1] = out[i - 1];
    return to;
}

void *memcpy(void *to, const void *from, size_t size) {
    return memmove(to, from, size);
}

void *memset(void *to, int byte, size_t size) {
    for (size_t i = 0; i < size; i++) ((unsigned char *)to)[i] = (unsigned char)byte;
    return to;
}

#if defined(__x86_64__)
enum { READ = 0, WRITE = 1, EXIT = 60 };
static long call_kernel(long number, long a, void *b, size_t c) {
    long answer;
    __asm__ volatile("syscall" : "=a"(answer) : "0"(number), "D"(a), "S"(b), "d"(c) : "rcx", "r11", "memory");
    return answer;
}
__asm__(".globl _start\n_start: lea stack+65536(%rip), %rsp\n xor %ebp, %ebp\n call bare\n");
#else
enum { READ = 63, WRITE = 64, EXIT = 93 };
static long call_kernel(long number, long a, void *b, size_t c) {
    register long x8 __asm__("x8") = number;
    register long x0 __asm__("x0") = a;
    register void *x1 __asm__("x1") = b;
    register size_t x2 __asm__("x2") = c;
    __asm__ volatile("svc 0" : "+r"(x0) : "r"(x8), "r"(x1), "r"(x2) : "memory");
    return x0;
}
__asm__(".globl _start\n_start: adrp x0, stack+65536\n add x0, x0, :lo12:stack+65536\n mov sp, x0\n bl bare\n");
#endif

static void print(const char *text) {
    size_t length = 0;
    while (text[length]) length++;
    call_kernel(WRITE, 1, (void *)text, length);
}

static void print_number(uint64_t number) {
    char digits[21];
    int at = 20;
    digits[at] = 0;
    do digits[--at] = (char)('0' + number % 10); while (number /= 10);
    print(digits + at);
}

static uint32_t report(size_t length) {
    struct vc4check_answer answer;
    uint32_t status = vc4check_check(input, length, block, 0, &answer);
    if (status == VC4CHECK_NO_MEMORY) return 5;
    if (status != VC4CHECK_REFUSED) {
        print("accepted\n");
        return 0;
    }
    char letter[] = {(char)answer.letter, 0};
    print("refused ");
    print(letter);
    print_number(answer.number);
    print(" at ");
    print_number(answer.offset);
    print("\n");
    return 1;
}

__attribute__((used, noreturn)) void bare(void) {
    size_t length = 0, untouched = 0;
    long got;
    while ((got = call_kernel(READ, 0, input + length, sizeof input - length)) > 0) length += (size_t)got;
    arena_over(block, sizeof block);
    uint32_t status = report(length);
    size_t own = (size_t)(stack + sizeof stack - (unsigned char *)__builtin_frame_address(0));
    while (stack[untouched] == 0) untouched++;
    print("memory ");
    print_number(arena_peak());
    print("\nstack ");
    print_number(sizeof stack - untouched - own);
    print("\n");
    call_kernel(EXIT, status, 0, 0);
    __builtin_unreachable();
}
