/*
 * Calls of the library beside the model. Every slice that a call is lent has a twin, which holds what must stand in the
 * slice after the call: the model writes the twin, the library the slice, and all bytes of both are compared. The first
 * mismatch is printed and ends the program.
 */
#ifndef C_CHECK_H
#define C_CHECK_H

#include "c_image.h"

/* A slice of exactly this length, in a block of malloc's own or before a page that is not there; or (NULL, 0). */
struct lent {
    uint8_t *bytes, *twin;
    size_t length, mapped; /* mapped: bytes of the pages, or 0 where malloc's */
};

/* What a call on an image is lent. The ledger is what the image shows, unless it is none (`is_image`). */
struct stage {
    struct lent image, block, list, out;
    struct ledger ledger;
    bool is_image;
};

/* What was done so far, for the summary. */
struct figures {
    uint64_t calls, refusals[LAST_REFUSAL + 1], kinds[YES + 1];
};
extern struct figures figures;

/* Says what the test is about to do, for a mismatch's message. */
void in_part(const char *format, ...) __attribute__((format(printf, 1, 2)));

/* Prints part, call and message; ends the program. */
void mismatch(const char *format, ...) __attribute__((format(printf, 1, 2), noreturn));

/* Compares two numbers or all bytes of a slice and its twin. */
void same_number(const char *what, uint64_t got, uint64_t expected);
void same_bytes(const char *what, const struct lent *slice);

/* Slices: all bytes of a new one are `filled`. */
struct lent lend(size_t length, uint8_t filled);
struct lent lend_nothing(void);
void end_lending(struct lent *slice);

/* Writes into a slice and its twin. */
void put_both(struct lent *slice, size_t at, unsigned width, uint64_t value);
void copy_both(struct lent *slice, const uint8_t *bytes);

/* The numbers that a call writes to out: as many whole ones as fit. */
void expect_out(struct lent *out, const uint64_t *numbers, size_t count);

/* A stage for a stream of this setup: an image buffer with `more` bytes behind the image, block, list and out. */
struct stage new_stage(const struct setup *setup, size_t more);
void end_stage(struct stage *stage);

/* The image shows this ledger; it shows what its bytes say. */
void show_ledger(struct stage *stage, const struct ledger *ledger);
void show_bytes(struct stage *stage);

/* Opens, or makes a call, on the library and on the model; compares everything; gives the answer. */
struct answer opened(struct stage *stage, const struct setup *setup);
struct answer played(struct stage *stage, enum call call, uint64_t number);

/* The same, and the answer must be this one. */
void expect_opened(struct stage *stage, const struct setup *setup, uint32_t refusal);
void expect(struct stage *stage, enum call call, uint64_t number, uint32_t refusal, enum kind kind, uint64_t value);

/* The parts of the test. */
void edges_of_two_slots(void);
void edges_of_r(void);
void edges_of_frames(void);
void traps(void);
void every_refusal(void);
void plain_functions(void);
void stretches(void);
struct damage {
    uint64_t truncations, changes, sound;
};
struct damage damaged_images(void);
void odd_slices(void);
void random_run(uint64_t seed, uint64_t calls);

#endif
