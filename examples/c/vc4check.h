/*
 * vc4check: the proved checker of VideoCore IV 3D jobs, as a library.
 *
 * Each call reads what it is given, writes the values that it is lent, and keeps nothing: no call remembers another, and the
 * caller owns all memory that it hands over. What a call takes for its own work it gives back before it returns.
 * examples/c/hello_submit.c in the sources is a small program to begin with.
 *
 * Three kinds of value say where something is:
 *  - a pointer, to the caller's own memory;
 *  - a bus address, of 32 bits, by which the hardware finds it. All those of a call are in one alias: at 0x0.., 0x4.., 0x8.. and 0xC.. the bus
 *    has one memory, but the checker takes them for four;
 *  - an offset, which counts bytes from the start of what its comment names.
 * Sizes and lengths are in bytes; counts, and the rooms of arrays, are in elements.
 *
 * What the caller owes, which nothing checks:
 *  - Each pointer is good for as many elements as its length says, is aligned, and is not null, also where the length is 0.
 *    A length in bytes is below 2^63.
 *  - What is written (block, window, samples, address_words, text, answer) shares no byte with anything else that the call is given.
 *  - While a call runs, no other thread and no device writes what it reads, or touches what it writes. Copy a job out of its
 *    client's reach first.
 *  - No call is made from a signal handler, or in the child of a fork of a process with threads.
 *  - malloc, realloc and free come from one allocator, and align to 16.
 * Calls from several threads at once are fine where these hold.
 */
#ifndef VC4CHECK_H
#define VC4CHECK_H

#include <stddef.h>
#include <stdint.h>

#ifdef __cplusplus
extern "C" {
#endif

/* The version of this header. It is that of the library where vc4check_version() answers the same. */
#define VC4CHECK_VERSION 6

/* How a call ended. */
enum {
    VC4CHECK_ACCEPTED = 0,  /* no rule is broken, and all that was asked for is written */
    VC4CHECK_REFUSED = 1,   /* a rule is broken, and the answer names it */
    VC4CHECK_SHORT = 2,     /* no rule is broken, and the room is too small for what was asked for */
    VC4CHECK_NO_MEMORY = 3, /* memory ran out before the answer was known; the same call may answer later */
    VC4CHECK_TOO_LONG = 4   /* of a shader alone: more than 8,192 words (65,536 bytes); no rule was asked */
};

/* The most jobs of a file. */
#define VC4CHECK_MOST_JOBS 8

/*
 * Where the lists of an accepted job are. `lists` and `slot` are bus addresses after vc4check_submit (the submission's own) and vc4check_place,
 * and offsets in the block after vc4check_check. `bin` to `end` are always offsets behind `lists`, and never addresses. So the hardware runs
 *
 *     the binner    from lists + bin to lists + bin + bin_length, where bin_length isn't 0: else the job has no binner list;
 *     the renderer  from lists + render to lists + end.
 */
struct vc4check_job {
    uint32_t lists;           /* bus address, or offset in the block: where the job's lists begin */
    uint32_t slot;            /* bus address, or offset in the block: the job's tile slot, of 524,288 bytes */
    uint32_t bin;             /* offset behind `lists`: the binner list, */
    uint32_t records;         /*   the shader records, */
    uint32_t uniforms;        /*   the uniforms, */
    uint32_t render;          /*   the renderer list, */
    uint32_t end;             /*   and its end, render + render_length */
    uint32_t bin_length;      /* bytes that were written of the binner list: at most the source's, and 0 without one, */
    uint32_t records_length;  /*   of the shader records, */
    uint32_t uniforms_length; /*   of the uniforms, */
    uint32_t render_length;   /*   and of the renderer list */
};

/*
 * The answer for a job file of 1 to 8 jobs. After VC4CHECK_REFUSED the first three fields say why, and all others are 0; after
 * VC4CHECK_ACCEPTED and VC4CHECK_SHORT those three are 0, and the first `jobs` of `job` are the file's jobs in order; the rest are 0.
 */
struct vc4check_answer {
    uint64_t offset; /* offset in the file of what the rule is about */
    uint32_t letter; /* the rule's letter, in ASCII: 'F' 'M' 'S' 'H' 'B' 'A' 'U' 'G' 'X', and 'E' from vc4check_place */
    uint32_t number; /* the rule's number, from 1 on */
    uint32_t size;   /* bytes: of the jobs' memory after vc4check_check, of the window that their lists take after vc4check_place */
    uint32_t jobs;   /* how many jobs the file has */
    struct vc4check_job job[VC4CHECK_MOST_JOBS]; /* where each job's lists are */
};

/*
 * How long jobs may run, in steps of the machine. After VC4CHECK_REFUSED `letter` and `number` name the first broken rule, and `offset` says
 * where in the file; the others are 0. After VC4CHECK_ACCEPTED either `loops` is 1, a shader branches back at `offset` of the file, and the
 * others are 0: then nothing bounds a run. Or `loops` is 0, and with N = 2^64 * `steps_high` + `steps_low` and W = `stay`:
 *
 *  - a run has at most N steps, and W more for each step in which a renderer stays at an item. An item is a primitive that a binner put on a
 *    tile. A renderer stays at it while it fetches a vertex or starts a program there. How often it does is the hardware's;
 *  - there are at most `items` items. So where none is stayed at more than K times, a run has at most N + W * K * items steps;
 *  - where `waits` is 0, all shaders are served: a run that can't go on has finished, or its binner waits for tile memory. Where it is 1, a
 *    program may wait for a request that isn't there: first the instruction at `offset` of the file.
 *
 * `offset` is 0 after vc4check_submission_bound, of which there is no file.
 */
struct vc4check_bound_answer {
    uint64_t offset;     /* offset in the file: of what the rule is about, of the branch, or of the instruction that may wait */
    uint64_t steps_low;  /* N, in steps: its low 64 bits, */
    uint64_t steps_high; /*   and its high 64 bits */
    uint64_t stay;       /* W, in steps: how many more for each step in which a renderer stays at an item */
    uint64_t items;      /* how many items there are at most */
    uint32_t loops;      /* 1 where a shader branches back, else 0 */
    uint32_t waits;      /* 1 where a program may wait for a request that isn't there, else 0 */
    uint32_t letter;     /* the rule's letter, in ASCII */
    uint32_t number;     /* the rule's number, from 1 on */
};

/*
 * The answer for a shader. After VC4CHECK_REFUSED the first two fields say why, and the others are 0; after VC4CHECK_ACCEPTED
 * and VC4CHECK_SHORT those two are 0.
 */
struct vc4check_shader_answer {
    uint32_t number;      /* of the broken rule S, from 1 on */
    uint32_t index;       /* of the instruction, from 0 on; the number of words for a rule on the whole shader */
    uint32_t uniforms;    /* how many uniforms it takes, words of 4 bytes */
    uint32_t threaded;    /* 1 where it switches threads, else 0 */
    size_t samples;       /* how many samples it asks for: texture or memory accesses */
    size_t address_words; /* how many of its uniforms are addresses of uniforms */
};

/* A position that is absent. */
#define VC4CHECK_NO_POSITION UINT32_MAX

/* One texture or memory access of a shader, in program order. */
struct vc4check_sample {
    uint32_t positions[4]; /* which of the shader's uniforms its set-up words are, by number, from 0 on; then VC4CHECK_NO_POSITION */
    uint32_t direct;       /* 1 where it reads memory at an address that the shader computed (position 0 has the base and
                              position 1 the bound), 0 where it asks a texture */
};

/* The answer for a shader's block. After VC4CHECK_REFUSED the first two fields say why, and `entries` is 0; after VC4CHECK_ACCEPTED
 * and VC4CHECK_SHORT those two are 0. */
struct vc4check_made {
    uint32_t number; /* of the broken rule S, from 1 on */
    uint32_t index;  /* of the instruction, from 0 on; the number of instructions for a rule on the whole shader */
    size_t entries;  /* how many entries the block takes: one, and one for each sample and each address of uniforms */
};

/* An entry of a shader's block, of 20 bytes. */
struct vc4check_known {
    uint32_t words[5]; /* the library's: they mean nothing to the caller */
};

/* What a buffer holds. */
enum {
    VC4CHECK_PLAIN = 0, /* data: what the job reads and writes */
    VC4CHECK_CODE = 1   /* a shader, from the buffer's start on, and zeros behind it */
};

/* A buffer of a submission. */
struct vc4check_buffer {
    uint32_t address;                   /* bus address of its first byte; a multiple of 4,096 */
    uint32_t size;                      /* bytes; a multiple of 4,096 */
    uint32_t client;                    /* whose it is: a number of the driver's. A job may name its own client's alone */
    uint32_t kind;                      /* VC4CHECK_PLAIN or VC4CHECK_CODE */
    const uint8_t *content;             /* pointer: to the shader in a Code buffer; that of a data buffer isn't read */
    size_t length;                      /* bytes of the shader, 8 for each instruction, at most 65,536; 0 for a data buffer */
    const struct vc4check_known *known; /* pointer: to the block that vc4check_make_shader made of exactly these bytes */
    size_t known_count;                 /* entries of that block; where a shader has none, vc4check_submit checks all shaders itself */
};

/* A surface of the frame, as in Linux's struct drm_vc4_submit_rcl_surface. docs/RULES.md, "Frame and surfaces", has its bits. */
struct vc4check_surface {
    uint32_t handle; /* an index into the submission's `handles`; all ones where the surface is absent */
    uint32_t offset; /* offset in that handle's buffer: where the surface begins; a multiple of 16 */
    uint16_t bits;   /* format, tiling and, of color_write, multisampling; 0 in full resolution */
    uint16_t flags;  /* of color_read and zs_read bit 0: in full resolution; else 0 */
};

/* The frame: the 96 bytes of Linux's struct drm_vc4_submit_cl from `width` on. */
struct vc4check_frame {
    uint16_t width, height;                   /* in pixels */
    uint8_t min_x_tile, min_y_tile;           /* the first tile that is drawn, and the last: across and down, from 0 on. A tile has a side of */
    uint8_t max_x_tile, max_y_tile;           /*   64 pixels, or 32 where bit 0 (multisample) of color_write.bits is set */
    struct vc4check_surface color_read;       /* where a tile's colour is loaded from, */
    struct vc4check_surface color_write;      /*   and stored to */
    struct vc4check_surface zs_read;          /* where its depth and stencil are loaded from, */
    struct vc4check_surface zs_write;         /*   and stored to */
    struct vc4check_surface msaa_color_write; /* where the colour of each sample is stored, in full resolution, */
    struct vc4check_surface msaa_zs_write;    /*   and its depth and stencil */
    uint32_t clear_color[2];                  /* with VC4CHECK_CLEARS what each tile begins with: colour, as the hardware's packet has it, */
    uint32_t clear_z;                         /*   depth, */
    uint8_t clear_s;                          /*   and stencil */
    uint8_t pad[3];                           /* zero */
};

/*
 * One job with all that it names. Its parts are read where they lie: they have to be copies that no client can reach.
 *
 * In its three lists all numbers are little endian, and a handle is a word of 4 bytes: an index into `handles`. Nothing in them is a bus address.
 * Where the hardware reads one, the client writes an offset in the buffer that a handle names, and the call writes the bus address into the
 * window. docs/FORMATS.md, "Binner lists" and "Shader records and uniforms", has each byte; in short:
 *
 *  - `bin` has packets, one behind the other. A packet 254 has the handle of the index buffer for the packets 32 behind it, whose addresses are
 *    offsets in it. In packet 112, the configuration, the call writes the addresses of the tile memory, whatever stands there.
 *  - `records` has for each shader state (packet 64), in order: the handles of its fragment, vertex and coordinate shader, a handle for each
 *    attribute's buffer, and the record. That has 36 bytes and 8 for each attribute; an extended one 100 bytes and 4 for each attribute. In it
 *    the addresses of code are 0, those of uniforms are anything, and that of an attribute is an offset in its buffer.
 *  - `uniforms` has for each shader state, and there for its fragment, vertex and coordinate shader in this order: a handle for each of the
 *    shader's samples (the buffer of a texture, or of a direct read), and then the words that the shader takes. The base of a texture or of a
 *    direct read is an offset in its buffer.
 */
struct vc4check_submission {
    const struct vc4check_buffer *buffers; /* pointer: the buffers, each once; no two share a byte */
    size_t buffer_count;                   /* at most 1,024 */
    const uint32_t *handles;               /* pointer: for each handle of the job the index of its buffer in `buffers`; one may be named twice */
    size_t handle_count;                   /* at most 1,024 */
    const uint8_t *bin;                    /* pointer: the binner list */
    size_t bin_length;                     /* bytes, at most 1,048,576; 0 where the job has no binner list */
    const uint8_t *records;                /* pointer: the shader records */
    size_t records_length;                 /* bytes, at most 1,048,576 */
    const uint8_t *uniforms;               /* pointer: the uniforms */
    size_t uniforms_length;                /* bytes, at most 1,048,576; a multiple of 4 */
    uint32_t client;                       /* whose job it is: a number of the driver's */
    uint32_t flags;                        /* VC4CHECK_CLEARS or 0 */
    uint32_t states;                       /* how many shader states (packets 64) the binner list may have; at most 65,536 */
    uint32_t end;                          /* first bus address behind the memory, at most 0xFF000000: nothing of the job lies past it */
    uint32_t lists;                        /* bus address at which the hardware finds the window; a multiple of 4,096 */
    uint32_t lists_size;                   /* bytes of the window that the lists may take; a multiple of 4,096 */
    uint32_t slot;                         /* bus address of the job's tile slot, of 524,288 bytes; a multiple of 4,096 */
    struct vc4check_frame frame;           /* what is drawn to */
};

/* A flag of a submission: the frame's clear values are used. */
#define VC4CHECK_CLEARS 1u

/* The part of a submission that a rule is about. */
enum {
    VC4CHECK_OF_MEMORY = 0,   /* at 8 `end`, at 12 `lists` or `lists_size`, at 20 `slot`; at 28 `buffer_count` */
    VC4CHECK_OF_BUFFER = 1,   /* buffer `index`: at 0 itself, at 12 its kind, at 16 its content's length */
    VC4CHECK_OF_JOB = 2,      /* at 4 `flags`, at 8 `handle_count`, at 12, 16 and 24 the lengths of bin, records and uniforms, at 20 `states`;
                                 from 28 on byte `offset` - 28 of `frame`. X1, lists that need more than `lists_size`, is at 12 too */
    VC4CHECK_OF_CONTENT = 3,  /* byte `offset` of the content of buffer `index` */
    VC4CHECK_OF_HANDLES = 4,  /* handle `offset` / 4 */
    VC4CHECK_OF_BIN = 5,      /* byte `offset` of the binner list, */
    VC4CHECK_OF_RECORDS = 6,  /*   of the shader records, */
    VC4CHECK_OF_UNIFORMS = 7  /*   of the uniforms */
};

/*
 * The answer for a submission. After VC4CHECK_REFUSED the first five fields say why, and the others are 0; after VC4CHECK_ACCEPTED and
 * VC4CHECK_SHORT those five are 0, and the others are the job's.
 */
struct vc4check_verdict {
    uint64_t offset;         /* offset in `part` of what the rule is about */
    uint32_t letter;         /* the rule's letter, in ASCII: 'F' 'M' 'S' 'H' 'B' 'A' 'U' 'G' 'X' 'E' */
    uint32_t number;         /* the rule's number, from 1 on */
    uint32_t part;           /* which part of the submission it is about: VC4CHECK_OF_MEMORY to VC4CHECK_OF_UNIFORMS, */
    uint32_t index;          /*   and of which buffer, by its index in `buffers`, else 0 */
    uint32_t size;           /* bytes of the window that the lists take */
    struct vc4check_job job; /* where they are */
};

#if !defined(__cplusplus) && defined(__STDC_VERSION__) && __STDC_VERSION__ >= 201112L
_Static_assert(sizeof(struct vc4check_job) == 44, "as long as the library's");
_Static_assert(sizeof(struct vc4check_answer) == 24 + 8 * 44, "as long as the library's");
_Static_assert(sizeof(struct vc4check_bound_answer) == 56, "as long as the library's");
_Static_assert(sizeof(struct vc4check_shader_answer) == 16 + 2 * sizeof(size_t), "as long as the library's");
_Static_assert(sizeof(struct vc4check_sample) == 20, "as long as the library's");
_Static_assert(sizeof(struct vc4check_made) == 8 + sizeof(size_t), "as long as the library's");
_Static_assert(sizeof(struct vc4check_known) == 20, "as long as the library's");
_Static_assert(sizeof(struct vc4check_buffer) == 16 + 4 * sizeof(size_t), "as long as the library's");
_Static_assert(sizeof(struct vc4check_frame) == 96, "as long as the library's, and as Linux's");
_Static_assert(offsetof(struct vc4check_submission, frame) == 28 + 10 * sizeof(size_t), "where the library's is");
_Static_assert(sizeof(struct vc4check_verdict) == 28 + 44, "as long as the library's");
#endif

/* The version of the library: compare it with VC4CHECK_VERSION. */
uint32_t vc4check_version(void);

/*
 * Checks the job file in `bytes`, of 1 to 8 jobs. Where no rule is broken, the memory that the jobs are to run in is put into `block`, from its
 * start on and with all lists relocated: places in it count from the block's start. Bytes of the block behind that memory stay. One
 * machine runs the jobs, and each may reach what its own handles, lists and slot allow.
 *
 * VC4CHECK_ACCEPTED   `answer` is filled in, and the memory is in the block.
 * VC4CHECK_REFUSED    `answer` names the first broken rule, and where; the block is as before.
 * VC4CHECK_SHORT      the jobs are accepted and `answer` is filled in, but `room` is below answer->size; the block is as before. A
 *                     room of 0 asks for the verdict and the size alone.
 * VC4CHECK_NO_MEMORY  `answer` and the block are as before.
 */
uint32_t vc4check_check(const uint8_t *bytes, size_t length, uint8_t *block, size_t room, struct vc4check_answer *answer);

/*
 * The same of a job file of 1 to 8 jobs whose places are addresses of the bus, for a driver: its memory, whose size the header gives, may
 * end anywhere up to 0xFF000000, and is neither made nor read. Where no rule is broken, the lists of all jobs are put into `window`, from its
 * start on, which stands for the start of the lists' region; the window's other bytes stay. In `answer`, `size` is how many bytes they take,
 * at most the file's size of that region; `lists` and `slot` of each job are addresses. Last of all the strict rules E1 to E13 are asked, as by
 * vc4check_submit.
 *
 * VC4CHECK_ACCEPTED   `answer` is filled in, and the lists are in the window.
 * VC4CHECK_REFUSED    `answer` names the first broken rule, and where; the window is as before.
 * VC4CHECK_SHORT      the jobs are accepted and `answer` is filled in, but `room` is below answer->size; the window is as before.
 * VC4CHECK_NO_MEMORY  `answer` and the window are as before.
 */
uint32_t vc4check_place(const uint8_t *bytes, size_t length, uint8_t *window, size_t room, struct vc4check_answer *answer);

/*
 * Checks the job file in `bytes`, and answers how long its jobs may run. No memory of the jobs is made.
 *
 * VC4CHECK_ACCEPTED   `answer` has the numbers, or the place of the first branch that leads back.
 * VC4CHECK_REFUSED    `answer` names the first broken rule, and where.
 * VC4CHECK_NO_MEMORY  `answer` is as before.
 */
uint32_t vc4check_bound(const uint8_t *bytes, size_t length, struct vc4check_bound_answer *answer);

/*
 * Checks a shader once, when it is made: `length` bytes. Where no rule is broken, what the check found out about it is put into `block`, for
 * vc4check_submit to read in place of checking the shader again. Keep the block, and the shader itself, where no client can change them.
 * The strict rules refuse no shader here: what they find is kept in the block too, and refuses the jobs that have the shader.
 *
 * VC4CHECK_ACCEPTED   the first answer->entries entries of the block are written.
 * VC4CHECK_REFUSED    `answer` names the first broken rule S, and where; the block is as before.
 * VC4CHECK_SHORT      the shader is accepted, but `room` entries are fewer than answer->entries; the block is as before. A room of 0 asks
 *                     how many a block takes.
 * VC4CHECK_NO_MEMORY, VC4CHECK_TOO_LONG  `answer` and the block are as before.
 */
uint32_t vc4check_make_shader(const uint8_t *code, size_t length, struct vc4check_known *block, size_t room, struct vc4check_made *answer);

/*
 * Checks one job of a driver. No memory of the job is made, and nothing of the submission is written. Where no rule is broken, its lists,
 * relocated, are put into `window`, from its start on, which is what the hardware finds at `lists`; the window's other bytes stay.
 *
 * Behind all other rules the strict ones are asked, E1 to E13: what the hardware's guide forbids, and vc4check_check lets through. E12, a
 * tile slot across a multiple of 256 MiB, is asked by this call and vc4check_place alone, last of all, and named at `slot`.
 *
 * VC4CHECK_ACCEPTED   `answer` is filled in, and the lists are in the window.
 * VC4CHECK_REFUSED    `answer` names the first broken rule, and where; the window is as before.
 * VC4CHECK_SHORT      the job is accepted and `answer` is filled in, but `room` is below answer->size; the window is as before. A room of
 *                     `lists_size` is always enough.
 * VC4CHECK_NO_MEMORY  `answer` and the window are as before.
 *
 * The answer rests on the blocks: each `known` of any entries is what vc4check_make_shader made of the buffer's content. Where one isn't,
 * nothing is read or written outside of what is given all the same. A block that can't be a shader's, as an empty one or one cut off, is as none,
 * and the call checks all shaders; by one of another shader a job may be accepted that isn't safe, or refused that is.
 *
 * An accepted job may run beside others, and in places of finished ones, where the driver keeps five duties (docs/LIBRARY.md, and driver.c).
 */
uint32_t vc4check_submit(const struct vc4check_submission *submission, uint8_t *window, size_t room, struct vc4check_verdict *answer);

/*
 * Checks one job of a driver as vc4check_submit does, and answers how long it may run. The numbers bound the steps for this job alone, however
 * other jobs come and go; `waits` is of a run of it by itself. The call takes longer than vc4check_submit: it checks each shader, and reads no
 * `known`. It asks no strict rule.
 *
 * VC4CHECK_ACCEPTED   `answer` is filled in.
 * VC4CHECK_REFUSED    `answer` names the first broken rule; vc4check_submit says where.
 * VC4CHECK_NO_MEMORY  `answer` is as before.
 */
uint32_t vc4check_submission_bound(const struct vc4check_submission *submission, struct vc4check_bound_answer *answer);

/*
 * The sentence of a rule: what is wrong where it refuses. `letter` is in ASCII. The text is put into `text`, of `room` bytes, with a zero byte
 * behind it, and cut off where the room is too small. The result is the length in bytes of the whole sentence without the zero byte, and 0 where
 * there is no such rule.
 */
size_t vc4check_sentence(uint32_t letter, uint32_t number, char *text, size_t room);

/* Room that is enough for every sentence. */
#define VC4CHECK_SENTENCE_ROOM 256

/*
 * What the job file says where a rule refuses it, as "needs 36 bytes, has 12". `answer` is what vc4check_check or vc4check_place told of these
 * bytes. The text is put into `text` as by vc4check_sentence, and its whole length without the zero byte into `size`: 0 where there is no more to
 * say than the sentence, or `answer` tells no refusal of these bytes. The rules are asked again.
 *
 * VC4CHECK_ACCEPTED   the text and its length are written.
 * VC4CHECK_NO_MEMORY  `text` and `size` are as before.
 */
uint32_t vc4check_facts(const uint8_t *bytes, size_t length, const struct vc4check_answer *answer, char *text, size_t room, size_t *size);

/*
 * Checks a shader by itself: `words` instructions of 64 bits. Where no rule is broken, its samples are put into `samples` and the
 * numbers of the uniforms that are addresses of uniforms into `address_words`, each from its start on.
 *
 * VC4CHECK_ACCEPTED   `answer` is filled in, and both lists are written.
 * VC4CHECK_REFUSED    `answer` names the first broken rule S, and where; the lists are as before.
 * VC4CHECK_SHORT      the shader is accepted and `answer` is filled in, but a list has too little room; both are as before.
 * VC4CHECK_NO_MEMORY, VC4CHECK_TOO_LONG  `answer` and the lists are as before.
 */
uint32_t vc4check_shader(const uint64_t *code, size_t words, struct vc4check_sample *samples, size_t sample_room,
                         uint32_t *address_words, size_t address_room, struct vc4check_shader_answer *answer);

#ifdef __cplusplus
}
#endif

#endif
