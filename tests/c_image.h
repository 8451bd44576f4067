/* The image of the model's ledger, and which bytes are the image of a sound record. */
#ifndef C_IMAGE_H
#define C_IMAGE_H

#include "c_model.h"

/* Where the image's parts start, for n slots, and its size. */
enum { SETUP_AT = 24, FRAME_AT = 88, HAND_AT = 96, STATES_AT = 136 };
size_t queue_at(uint64_t n);
size_t counters_at(uint64_t n);
size_t image_size(uint64_t n);

/* Writes the ledger's image. */
void write_image(const struct ledger *ledger, uint8_t *image);

/* Whether the bytes begin with the image of a sound record; if so, that record's ledger. */
bool read_image(const uint8_t *bytes, size_t length, struct ledger *ledger);

#endif
