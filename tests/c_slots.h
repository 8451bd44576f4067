/*
 * What the model's calls do to a slot: taking it from the queue, returning it, writing its lengths, filling it with
 * silence.
 */
#ifndef C_SLOTS_H
#define C_SLOTS_H

#include "c_model.h"

void set_hand(struct ledger *ledger, enum hand hand, uint64_t slot, uint64_t left);

/* "Return" puts a slot at the queue's end as Free. */
void return_slot(struct ledger *ledger, uint64_t slot);

/* Returns the slot in hand; then the hand is Idle. */
void put_back(struct ledger *ledger);

/* turn's taking: the front slot is held, or the queue is empty. */
struct answer take_to_fill(struct ledger *ledger);

/* The front slot, silenced, with so many to follow. */
struct answer take_silent(struct ledger *ledger, uint64_t left, uint8_t *block);

uint8_t *header_in(const struct ledger *ledger, uint64_t slot, uint8_t *block);

/* All that a commit of these lengths writes; and of so many bytes, each packet with all its frames before the next. */
void write_lengths(const struct ledger *ledger, uint64_t slot, const uint64_t *lengths, uint8_t *block);
void write_spread(const struct ledger *ledger, uint64_t slot, uint64_t bytes, uint8_t *block);

#endif
