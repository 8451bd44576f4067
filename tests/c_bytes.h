/* Little-endian numbers of a given width in bytes, for the tests of the C interface. */
#ifndef C_BYTES_H
#define C_BYTES_H

#include <stdint.h>

static inline uint64_t number_at(const uint8_t *bytes, unsigned width)
{
    uint64_t value = 0;
    for (unsigned k = 0; k < width; k++)
        value |= (uint64_t)bytes[k] << (8 * k);
    return value;
}

static inline void put_number(uint8_t *bytes, unsigned width, uint64_t value)
{
    for (unsigned k = 0; k < width; k++)
        bytes[k] = (uint8_t)(value >> (8 * k));
}

/* A signed number of 4 bytes. */
static inline int64_t signed_at(const uint8_t *bytes)
{
    return (int32_t)(uint32_t)number_at(bytes, 4);
}

#endif
