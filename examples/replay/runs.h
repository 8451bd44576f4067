/*
 * What the files of replay share: a run, a call of it, and the prototypes. The form of the text and of the lines is
 * that of docs/RUNS.md, section "Stored runs".
 */
#ifndef RUNS_H
#define RUNS_H

#include <stdbool.h>
#include <stddef.h>
#include <stdint.h>
#include <stdio.h>
#include <usbfs_iso.h>

enum limit {
    BLOCK_AT_MOST = 524288,
    IMAGE_BUFFER = 1536, /* room for the image of 256 slots, and some more */
    LIST_AT_MOST = 256,
    FILLED = 165         /* every byte of block and buffer before the opening */
};

/* Calls by their kinds. Three are none: the end of a run, writes into the image and, not in the text, the opening. */
enum call_kind {
    TURN = 0,
    COMMIT = 1,
    COMMIT_FULL = 2,
    COMMIT_PACKETS = 3,
    SUBMITTED_ACCEPTED = 4,
    SUBMITTED_ERRNO = 5,
    REAPED_ERRNO = 6,
    REAPED_ADDRESS = 7,
    GIVE_BACK = 8,
    START = 9,
    STOP = 10,
    FINISH = 11,
    END = 12,
    WRITE_IMAGE = 13,
    OPENING = 14
};

/* What usbfs_iso_open takes, the lengths of block and image included. */
struct opening {
    uint64_t slots, packets_per_urb, packet_bytes, endpoint, policy, silence_byte, base, tag, frame_bytes;
    uint64_t block_length, image_length;
};

/* A run: the two pieces of memory of its stream, and what the last call answered. */
struct run {
    uint8_t *block;                      /* of block_length bytes */
    size_t block_length;
    uint8_t image[IMAGE_BUFFER];
    size_t image_length;                 /* how many bytes of the buffer are lent */
    uint32_t refusal;                    /* what the last call returned */
    uint64_t out[USBFS_ISO_OUT_NUMBERS]; /* its eight numbers */
    uint64_t list[LIST_AT_MOST];         /* and stop's list */
};

struct call {
    uint64_t kind, argument, lent, writes, lengths_count;
    uint64_t lengths[LIST_AT_MOST];
};

/* reader.c: a function that reads is false where the input is bad. */
bool is_at_end(FILE *input);
bool read_number(FILE *input, uint64_t at_most, uint64_t *number);
bool read_opening(FILE *input, struct opening *opening);
bool read_call(FILE *input, struct run *run, struct call *call);

/* calls.c */
bool begin_run(struct run *run, const struct opening *opening);
void end_run(struct run *run);
void open_stream(struct run *run, const struct opening *opening);
void make_call(struct run *run, const struct call *call);

/* lines.c */
uint64_t number_at(const uint8_t *bytes, unsigned width);
uint64_t out_count(const uint8_t *image);
bool has_record(const struct run *run, enum call_kind kind);
void print_line(const struct run *run, uint64_t number, enum call_kind kind);

/* screen.c */
void print_heading(void);
void print_row(const struct run *run, enum call_kind kind);

/* questions.c */
bool answer_question(FILE *input);

#endif
