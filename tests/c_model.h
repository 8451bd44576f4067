/*
 * The paper's ledger in plain C: what each call answers, and what it leaves in ledger, block and list. It is written
 * from the requirements and shares nothing with the library; the tests hold the library against it.
 */
#ifndef C_MODEL_H
#define C_MODEL_H

#include <stdbool.h>
#include <stddef.h>
#include <stdint.h>

enum { MOST_SLOTS = 256, MOST_PACKETS = 128, MOST_PACKET_BYTES = 49152 };
enum { NOT_AN_IMAGE = 31, FRAME_SIZE = 33, LAST_REFUSAL = FRAME_SIZE, POSITION_BEYOND = 34 };
enum hand { IDLE, HELD, SENDING, SILENT };
enum state { FREE, FILLING, IN_FLIGHT, DISCARDING };
enum policy { CONTINUE, FILL_SILENCE, ERROR };
enum mark { HOME, OUT, OUT_WITH_DISCARD };
enum kind { REFUSAL, DONE, NOTHING, SLOT, SUBMIT, COMPLETION, FOREIGN, YES };
enum counter {
    SUBMITTED, COMPLETED, BYTES_SUBMITTED, TRANSFERRED, SHORT_BYTES, PACKET_ERRORS, URB_ERRORS, UNDERRUNS, COUNTERS
};

/* Byte offsets of a header, of its descriptors and of a descriptor's fields. */
enum {
    TYPE = 0, ENDPOINT = 1, STATUS = 4, FLAGS = 8, BUFFER = 16, BUFFER_LENGTH = 24, ACTUAL_LENGTH = 28, PACKETS = 36,
    ERROR_COUNT = 40, COOKIE = 48, DESCRIPTORS = 56, DESCRIPTOR = 12,
    PACKET_LENGTH = 0, PACKET_ACTUAL = 4, PACKET_STATUS = 8
};

/* The ten calls, submitted and reaped once for each reply of the kernel. */
enum call {
    TURN, COMMIT, COMMIT_FULL, COMMIT_PACKETS, ACCEPTED, SUBMITTED_ERRNO, REAPED_ERRNO, REAPED_ADDRESS,
    GIVE_BACK, START, STOP, FINISH, CALLS
};

/* A lent slice. */
struct bytes {
    uint8_t *at;
    size_t length;
};

/* Opening's values but the block. */
struct setup {
    uint64_t slots, packets_per_urb, packet_bytes;
    uint8_t endpoint;
    uint64_t policy;
    uint8_t silence_byte;
    uint64_t base, tag, frame_bytes;
};

struct layout {
    uint64_t header_stride, data_base, data_stride, total, alignment, capacity;
};

struct ledger {
    struct setup setup;
    enum hand hand;
    uint64_t slot, left; /* of the hand; unused ones zero */
    uint32_t queue[MOST_SLOTS];
    size_t queued;
    enum mark marks[MOST_SLOTS];
    bool started, armed;
    uint64_t totals[COUNTERS];
};

/* What a call gives: 0 or the refusal's number, and the eight numbers. */
struct answer {
    uint32_t refusal;
    uint64_t numbers[8];
};

struct answer answered(enum kind kind, uint64_t value);
struct answer refused(uint32_t number, uint64_t value);

/* The layout, or the number that refuses it. */
uint32_t model_layout(uint64_t n, uint64_t p, uint64_t b, uint64_t f, struct layout *layout);
struct layout layout_of(const struct setup *setup);

/* What commit puts into a packet at most: the largest multiple of f not above b. */
uint64_t packet_fill(uint64_t b, uint64_t f);

/* The first of opening's own refusals (1, 2, 3, 5, 33, 6, 7) that these values and a block so long meet, or 0. */
uint32_t opening_refusal(const struct setup *setup, uint64_t block_length);

/* Opening: writes ledger and block unless it refuses. */
struct answer model_open(const struct setup *setup, struct bytes block, size_t image_length, struct ledger *ledger);

/* A call on a sound record. number: commit's bytes, an errno or an address. */
struct answer model_call(struct ledger *ledger, enum call call, uint64_t number, struct bytes list, struct bytes block);

enum state state_of(const struct ledger *ledger, uint64_t slot);
size_t count_out(const struct ledger *ledger);

#endif
