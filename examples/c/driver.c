/* driver CALLS FILE..: the core of a driver over vc4check_submit, whose jobs come and go, and a run of so many calls of it by clients that each
 * hand in the job of a file, again and again. The driver keeps the five duties of docs/LIBRARY.md by a table of live jobs: while a job is live
 * its window, its slot and its buffers are refused to whoever would use them again or free them. Which call comes next is random, and so is
 * when a job's units have no work left, and when the chip is reset. After each call the duties are asked of all live jobs, byte by byte,
 * from what was handed in and reported. Prints how many calls did what. Status 0: all duties were kept. */
#include <stdio.h>
#include <stdlib.h>
#include <string.h>
#include "job_file.h"

enum { PAGE = 4096, WINDOW = 2 << 20, WINDOWS = 3, SLOT = 524288, SLOTS = 4, JOBS = 4, CLIENTS = 64, BUFFERS = 1024 };
static const uint32_t BUS = 0xC0000000, END = 0xFF000000;

/* ---- the driver ---- */

/* A buffer of a client. Of a Code buffer `bytes` is what the hardware finds in it. */
struct buffer {
    bool there;
    uint32_t address, size;
    uint8_t *bytes;
    int users; /* live jobs that were handed in with it */
};

struct live_job {
    bool live;
    int window, slot;
    struct buffer *buffers; /* the client's, `count` of them */
    size_t count;
    uint32_t work; /* steps that some unit still has for it: the hardware's */
};

static uint8_t windows[WINDOWS][WINDOW];
static bool window_used[WINDOWS], slot_used[SLOTS];
static struct live_job jobs[JOBS];

static uint32_t window_address(int window) { return BUS + (uint32_t)window * WINDOW; }
static uint32_t slot_address(int slot) { return BUS + WINDOWS * WINDOW + (uint32_t)slot * SLOT; }

static struct live_job *free_entry(void) {
    for (int j = 0; j < JOBS; j++)
        if (!jobs[j].live) return &jobs[j];
    return NULL;
}

static bool all_there(const struct buffer *buffers, size_t count) {
    for (size_t b = 0; b < count; b++)
        if (!buffers[b].there) return false;
    return true;
}

enum outcome { DONE, IN_USE, BY_RULE };

/* Hands a job in. Its window and slot have to be free: no live job's lists lie in the one, and no live job may write the other. */
static enum outcome submit(struct vc4check_submission *s, struct buffer *buffers, int window, int slot, struct vc4check_verdict *report) {
    struct live_job *job = free_entry();
    if (!job || window_used[window] || slot_used[slot] || !all_there(buffers, s->buffer_count)) return IN_USE;
    s->end = END;
    s->lists = window_address(window);
    s->lists_size = WINDOW;
    s->slot = slot_address(slot);
    if (vc4check_submit(s, windows[window], WINDOW, report) != VC4CHECK_ACCEPTED) return BY_RULE;
    window_used[window] = slot_used[slot] = true;
    for (size_t b = 0; b < s->buffer_count; b++) buffers[b].users++;
    *job = (struct live_job){.live = true, .window = window, .slot = slot, .buffers = buffers, .count = s->buffer_count};
    return DONE;
}

/* A job is finished only where no unit has work left for it. */
static enum outcome finish(struct live_job *job) {
    if (job->work > 0) return IN_USE;
    window_used[job->window] = slot_used[job->slot] = false;
    for (size_t b = 0; b < job->count; b++) job->buffers[b].users--;
    job->live = false;
    return DONE;
}

/* After that no unit has work. */
static void reset(void) {
    for (int j = 0; j < JOBS; j++) jobs[j].work = 0;
}

/* A buffer that a live job was handed in with is neither freed nor moved. */
static enum outcome free_buffer(struct buffer *buffer) {
    if (buffer->users > 0) return IN_USE;
    free(buffer->bytes);
    *buffer = (struct buffer){.size = buffer->size};
    return DONE;
}

/* ---- its clients ---- */

struct client {
    uint8_t *file;
    struct filled_submission *filled;
    struct buffer *buffers;
};

static struct client clients[CLIENTS];
static int client_count;

static uint32_t chance(uint32_t below) {
    static uint64_t state = 1;
    state = state * 6364136223846793005u + 1442695040888963407u;
    return (uint32_t)(state >> 33) % below;
}

static bool meet(uint64_t a, uint64_t a_size, uint64_t b, uint64_t b_size) {
    return a < b + b_size && b < a + a_size;
}

/* The buffer of some client that shares a byte with these; null where none does. */
static const struct buffer *met_by(uint32_t address, uint32_t size) {
    for (int c = 0; c < client_count; c++)
        for (size_t b = 0; b < clients[c].filled->submission.buffer_count; b++) {
            const struct buffer *other = &clients[c].buffers[b];
            if (other->there && meet(address, size, other->address, other->size)) return other;
        }
    return NULL;
}

/* Makes the buffer at the first place that is free, where there is one, and copies the shader of a Code buffer into it, with zeros behind. */
static void make_buffer(struct buffer *buffer, struct vc4check_buffer *given) {
    const struct buffer *other;
    uint32_t address = slot_address(SLOTS);
    while (given->size <= END - address && (other = met_by(address, given->size))) address = other->address + other->size;
    if (given->size > END - address) return;
    *buffer = (struct buffer){.there = true, .address = given->address = address, .size = given->size};
    if (given->kind != VC4CHECK_CODE || given->length > given->size) return;
    buffer->bytes = calloc(given->size, 1);
    if (!buffer->bytes) abort();
    memcpy(buffer->bytes, given->content, given->length);
}

static uint8_t *whole(const char *name, size_t *length) {
    FILE *file = fopen(name, "rb");
    if (!file) return NULL;
    fseek(file, 0, SEEK_END);
    long size = ftell(file);
    rewind(file);
    uint8_t *bytes = size < 0 ? NULL : malloc((size_t)size + 1);
    *length = bytes ? fread(bytes, 1, (size_t)size, file) : 0;
    fclose(file);
    return bytes;
}

/* A client with the job of this file; false where no submission is of it. */
static bool open_client(const char *name) {
    struct client *client = &clients[client_count];
    size_t length = 0;
    client->file = whole(name, &length);
    client->filled = malloc(sizeof *client->filled);
    client->buffers = calloc(BUFFERS, sizeof *client->buffers);
    if (!client->file || !client->filled || !client->buffers) abort();
    bool is = client_count + 1 < CLIENTS && submission_of_job_file(client->file, length, 0, client->filled);
    for (size_t b = 0; is && b < client->filled->submission.buffer_count; b++) is = client->filled->buffers[b].size % PAGE == 0;
    if (!is) {
        free(client->file);
        free(client->filled);
        free(client->buffers);
        return false;
    }
    client_count++;
    for (size_t b = 0; b < client->filled->submission.buffer_count; b++) make_buffer(&client->buffers[b], &client->filled->buffers[b]);
    return true;
}

/* ---- the duties, asked from what was handed in and reported ---- */

/* What was handed in and reported of each live job, and the lists as they were then. */
static struct handed {
    struct client *client;
    struct vc4check_submission submission;
    struct vc4check_buffer buffers[BUFFERS];
    struct vc4check_verdict report;
    uint8_t *lists;
} handed[JOBS];

struct interval {
    uint32_t place, size;
};

/* What the job may write: its slot, and the data buffers that its handles name. */
static size_t written_by(const struct handed *h, struct interval *into) {
    size_t count = 0;
    into[count++] = (struct interval){h->submission.slot, SLOT};
    for (size_t k = 0; k < h->submission.handle_count; k++) {
        const struct vc4check_buffer *buffer = &h->buffers[h->submission.handles[k]];
        if (buffer->kind == VC4CHECK_PLAIN) into[count++] = (struct interval){buffer->address, buffer->size};
    }
    return count;
}

/* What it may only read: its lists, and the Code buffers that its handles name. */
static size_t read_by(const struct handed *h, struct interval *into) {
    size_t count = 0;
    into[count++] = (struct interval){h->submission.lists, h->report.size};
    for (size_t k = 0; k < h->submission.handle_count; k++) {
        const struct vc4check_buffer *buffer = &h->buffers[h->submission.handles[k]];
        if (buffer->kind == VC4CHECK_CODE) into[count++] = (struct interval){buffer->address, buffer->size};
    }
    return count;
}

/* One live job may write nothing that another, or itself, may only read; nor the other's slot, which the hardware reads back. */
static bool spares(const struct handed *one, const struct handed *other) {
    static struct interval written[BUFFERS + 1], read[BUFFERS + 2];
    size_t writes = written_by(one, written), reads = read_by(other, read);
    if (one != other) read[reads++] = (struct interval){other->submission.slot, SLOT};
    for (size_t w = 0; w < writes; w++)
        for (size_t r = 0; r < reads; r++)
            if (meet(written[w].place, written[w].size, read[r].place, read[r].size)) return false;
    return true;
}

/* What the hardware finds: the lists that the call wrote, and in each Code buffer the shader with zeros behind, where it was handed in. */
static bool is_prepared(int j) {
    const struct handed *h = &handed[j];
    if (memcmp(windows[jobs[j].window], h->lists, h->report.size) != 0) return false;
    for (size_t b = 0; b < h->submission.buffer_count; b++) {
        const struct vc4check_buffer *given = &h->buffers[b];
        const struct buffer *now = &h->client->buffers[b];
        if (!now->there || now->address != given->address || now->size != given->size) return false;
        if (given->kind != VC4CHECK_CODE) continue;
        if (memcmp(now->bytes, given->content, given->length) != 0) return false;
        for (uint32_t i = (uint32_t)given->length; i < now->size; i++)
            if (now->bytes[i]) return false;
    }
    return true;
}

static bool duties_kept(void) {
    for (int i = 0; i < JOBS; i++) {
        if (!jobs[i].live && jobs[i].work > 0) return false;
        if (!jobs[i].live) continue;
        if (handed[i].submission.end != END || !is_prepared(i)) return false;
        for (int j = 0; j < JOBS; j++)
            if (jobs[j].live && !spares(&handed[i], &handed[j])) return false;
    }
    return true;
}

/* ---- a run ---- */

static struct { int accepted, by_rule, in_use, finished, resets, freed, most; } counts;

static void count_live(void) {
    int live = 0;
    for (int j = 0; j < JOBS; j++) live += jobs[j].live;
    if (live > counts.most) counts.most = live;
}

/* Keeps what was handed in and reported beside the driver's entry, whose window is now the job's. */
static void keep(struct client *client, int j, const struct vc4check_verdict *report) {
    struct handed *h = &handed[j];
    h->client = client;
    h->submission = client->filled->submission;
    memcpy(h->buffers, client->filled->buffers, h->submission.buffer_count * sizeof *h->buffers);
    h->report = *report;
    free(h->lists);
    h->lists = malloc(report->size + 1);
    if (!h->lists) abort();
    memcpy(h->lists, windows[jobs[j].window], report->size);
    jobs[j].work = chance(6);
}

static void try_submit(void) {
    struct client *client = &clients[chance((uint32_t)client_count)];
    struct vc4check_verdict report;
    struct live_job *entry = free_entry();
    switch (submit(&client->filled->submission, client->buffers, (int)chance(WINDOWS), (int)chance(SLOTS), &report)) {
    case DONE: counts.accepted++; keep(client, (int)(entry - jobs), &report); break;
    case BY_RULE: counts.by_rule++; break;
    case IN_USE: counts.in_use++;
    }
}

static void try_finish(struct live_job *job) {
    if (!job->live) return;
    if (finish(job) == DONE) counts.finished++;
    else counts.in_use++;
}

/* A client frees one of its buffers, or makes one again that it freed, at the first place that is free by then. */
static void try_free(void) {
    struct client *client = &clients[chance((uint32_t)client_count)];
    size_t count = client->filled->submission.buffer_count;
    if (count == 0) return;
    size_t b = chance((uint32_t)count);
    if (!client->buffers[b].there) make_buffer(&client->buffers[b], &client->filled->buffers[b]);
    else if (free_buffer(&client->buffers[b]) == DONE) counts.freed++;
    else counts.in_use++;
}

static void call(void) {
    struct live_job *job = &jobs[chance(JOBS)];
    switch (chance(12)) {
    case 0: case 1: case 2: case 3: try_submit(); break;
    case 4: case 5: try_free(); break;
    case 6: case 7: case 8: try_finish(job); break;
    case 9: if (chance(8) == 0) { reset(); counts.resets++; } break;
    default: if (job->live && job->work > 0) job->work--;
    }
    count_live();
}

int main(int count, char **words) {
    long calls = count > 1 ? atol(words[1]) : 0;
    int left_out = 0;
    for (int i = 2; i < count; i++) left_out += !open_client(words[i]);
    for (long i = 0; i < calls && client_count > 0; i++) {
        call();
        if (!duties_kept()) {
            printf("a duty is broken after call %ld\n", i);
            return 1;
        }
    }
    printf("%d clients, %d left out: %d jobs accepted, %d refused by a rule, %d calls refused since something is in use, %d finished, %d resets, "
           "%d buffers freed; at most %d jobs live; each duty kept\n",
           client_count, left_out, counts.accepted, counts.by_rule, counts.in_use, counts.finished, counts.resets, counts.freed, counts.most);
    return 0;
}
