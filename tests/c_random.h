/* Seeded random numbers, setups, ledgers and bytes for the tests of the C interface. */
#ifndef C_RANDOM_H
#define C_RANDOM_H

#include "c_check.h"

struct random {
    uint64_t state;
};

uint64_t draw(struct random *r);
uint64_t below(struct random *r, uint64_t limit);
bool one_in(struct random *r, uint64_t count);

/* Random bytes into a slice and its twin. */
void draw_bytes(struct random *r, struct lent *slice);

/* A setup that opening accepts, with a block of at most 40,000 bytes. */
struct setup draw_setup(struct random *r);

/* A sound record of this setup, reached by calls or not. */
struct ledger draw_ledger(struct random *r, const struct setup *setup);

/* A total: small, any, or just below 2^64. */
uint64_t draw_total(struct random *r);

/* A number for a call, mostly one that makes sense on this ledger: commit's bytes, an errno or an address. */
uint64_t draw_number(struct random *r, enum call call, const struct ledger *ledger);

/* Lengths for commit_packets, mostly right ones, into a slice of their own. */
struct lent draw_lengths(struct random *r, const struct setup *setup);

/* What a kernel leaves in a slot's header and descriptors, and sometimes what it never would. */
void draw_completion(struct random *r, const struct ledger *ledger, uint64_t slot, struct lent *block);

#endif
