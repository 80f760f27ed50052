/* hello_submit: the least program that has a job checked as a driver does: one triangle in a frame of 16 by 16 pixels. It prints where the
 * hardware finds the job's lists, or the refusal in words. With any word behind it the job names a handle too few, and is refused.
 * Status 0: accepted, 1: refused, 5: neither. docs/FORMATS.md has the forms of list, records and uniforms. */
#include <stdio.h>
#include "vc4check.h"

enum { PAGE = 4096, SLOT = 524288, CLIENT = 1 };
#define BUS 0xC0000000u /* from this bus address on lie the lists, the tile slot, and four buffers of a page each */
#define FIRST (BUS + PAGE + SLOT)

static const uint64_t paint[] = {0x100009e7009e7000, 0x100009e7009e7000, 0x40020ba715827d80, /* each pixel's colour is its uniform */
                                 0x300009e7009e7000, 0x100009e7009e7000, 0x500009e7009e7000};
static const uint64_t stop[] = {0x300009e7009e7000, 0x100009e7009e7000, 0x100009e7009e7000}; /* ends at once */
static const uint8_t uniforms[] = {0xff, 0x80, 0x40, 0xff}; /* what `paint` takes; `stop` takes nothing */
static const uint8_t bin[] = {0x70, 0, 0, 0, 0, 0, 0, 0, 0, 0, 0, 0, 0, 1, 1, 0, /* one tile; the checker fills in the tile memory */
                              0x06, 0x38, 0x12, 0x40, 1, 0, 0, 0, /* start of binning, list format, shader state of one attribute */
                              0x21, 4, 3, 0, 0, 0, 0, 0, 0, 0, 0x07, 0x04}; /* triangles, 3 vertices from 0 on; semaphore, flush */
static const uint8_t records[60] = {2, 0, 0, 0, 3, 0, 0, 0, 3, 0, 0, 0, 1, 0, 0, 0, /* handles: three shaders, the vertices */
                                    [16] = 1, [56] = 11, 12}; /* one thread; 12 bytes a vertex (written as 11), one every 12 bytes */
static const uint32_t handles[] = {0, 1, 2, 3};
static struct vc4check_known blocks[4][1]; /* one entry is enough for a shader without textures and loops */
static struct vc4check_buffer buffers[] = { /* address, size, client, kind, content, length, known, known_count */
    {FIRST, PAGE, CLIENT, VC4CHECK_PLAIN, uniforms, 0, blocks[0], 0},        /* the pixels, */
    {FIRST + PAGE, PAGE, CLIENT, VC4CHECK_PLAIN, uniforms, 0, blocks[1], 0}, /*   the vertices: no content of data is read */
    {FIRST + 2 * PAGE, PAGE, CLIENT, VC4CHECK_CODE, (const uint8_t *)paint, sizeof paint, blocks[2], 0},
    {FIRST + 3 * PAGE, PAGE, CLIENT, VC4CHECK_CODE, (const uint8_t *)stop, sizeof stop, blocks[3], 0}};
static struct vc4check_submission job = {.buffers = buffers, .buffer_count = 4, .handles = handles, .handle_count = 4, .bin = bin,
    .bin_length = sizeof bin, .records = records, .records_length = sizeof records, .uniforms = uniforms, .uniforms_length = sizeof uniforms,
    .client = CLIENT, .states = 1, .end = 0xFF000000, .lists = BUS, .lists_size = PAGE, .slot = BUS + PAGE,
    .frame = {.width = 16, .height = 16, .color_read = {.handle = UINT32_MAX}, .color_write = {.handle = 0, .bits = 4}, /* rows, 4 bytes a pixel */
              .zs_read = {.handle = UINT32_MAX}, .zs_write = {.handle = UINT32_MAX},
              .msaa_color_write = {.handle = UINT32_MAX}, .msaa_zs_write = {.handle = UINT32_MAX}}};
static uint8_t window[PAGE]; /* a driver's is the memory that the hardware finds at `lists` */

int main(int count, char **words) {
    static const char *const parts[] = {"memory", "buffer", "job", "shader", "handles", "binner list", "shader records", "uniforms"};
    struct vc4check_made made;
    struct vc4check_verdict verdict;
    char text[VC4CHECK_SENTENCE_ROOM];
    (void)words;
    if (vc4check_version() != VC4CHECK_VERSION) return 5;
    if (count > 1) job.handle_count = 3;
    for (int b = 2; b < 4; b++) /* a refused shader gets no block: then vc4check_submit checks it again, and says why */
        if (vc4check_make_shader(buffers[b].content, buffers[b].length, blocks[b], 1, &made) == VC4CHECK_ACCEPTED)
            buffers[b].known_count = made.entries;
    uint32_t status = vc4check_submit(&job, window, sizeof window, &verdict);
    if (status == VC4CHECK_ACCEPTED) {
        const struct vc4check_job *at = &verdict.job;
        printf("accepted: binner list at 0x%08x, %u bytes; renderer list at 0x%08x, %u bytes\n", at->lists + at->bin, at->bin_length,
               at->lists + at->render, at->render_length);
    } else if (status == VC4CHECK_REFUSED) {
        vc4check_sentence(verdict.letter, verdict.number, text, sizeof text);
        printf("refused by %c%u at byte %u of the %s: %s\n", (int)verdict.letter, verdict.number, (unsigned)verdict.offset,
               parts[verdict.part], text);
    }
    return status > VC4CHECK_REFUSED ? 5 : (int)status;
}
