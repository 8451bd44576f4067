/* The model's layout and opening. */
#include "c_model.h"
#include "c_bytes.h"
#include <string.h>

typedef unsigned __int128 wide;

static const wide LARGEST = UINT64_MAX;

static wide raised(wide value, unsigned to)
{
    return (value + to - 1) / to * to;
}

uint64_t packet_fill(uint64_t b, uint64_t f)
{
    return b - b % f;
}

uint32_t model_layout(uint64_t n, uint64_t p, uint64_t b, uint64_t f, struct layout *layout)
{
    if (n < 2)
        return 1;
    if (p == 0 || b == 0)
        return 2;
    if (p > MOST_PACKETS)
        return 3;
    wide stride = raised(DESCRIPTORS + DESCRIPTOR * (wide)p, 8);
    wide base = raised(n * stride, 64);
    wide data_stride = raised((wide)p * b, 64);
    if (base > LARGEST || data_stride > LARGEST || n * data_stride > LARGEST || base + n * data_stride > LARGEST)
        return 4;
    if (f == 0 || f > b)
        return FRAME_SIZE;
    *layout = (struct layout){stride, base, data_stride, base + n * data_stride, 64, p * packet_fill(b, f)};
    return 0;
}

struct layout layout_of(const struct setup *setup)
{
    struct layout layout = {0, 0, 0, 0, 0, 0};
    model_layout(setup->slots, setup->packets_per_urb, setup->packet_bytes, setup->frame_bytes, &layout);
    return layout;
}

static bool is_bad_base(const struct setup *setup, uint64_t total)
{
    wide limit = (wide)1 << (setup->tag ? 56 : 64);
    return setup->base % 64 != 0 || setup->base % limit + total > limit;
}

uint32_t opening_refusal(const struct setup *setup, uint64_t block_length)
{
    struct layout layout;
    uint32_t number =
        model_layout(setup->slots, setup->packets_per_urb, setup->packet_bytes, setup->frame_bytes, &layout);
    if (number != 0 && number <= 3)
        return number;
    if (setup->slots > MOST_SLOTS || setup->packet_bytes > MOST_PACKET_BYTES)
        return 5;
    if (setup->frame_bytes == 0 || setup->frame_bytes > setup->packet_bytes)
        return FRAME_SIZE;
    if (block_length != layout.total)
        return 6;
    return is_bad_base(setup, layout.total) ? 7 : 0;
}

static void write_headers(const struct setup *setup, uint8_t *block)
{
    struct layout layout = layout_of(setup);
    memset(block, 0, layout.total);
    for (uint64_t i = 0; i < setup->slots; i++) {
        uint8_t *header = block + i * layout.header_stride;
        header[TYPE] = 0;
        header[ENDPOINT] = setup->endpoint;
        put_number(header + FLAGS, 4, 2);
        put_number(header + BUFFER, 8, setup->base + layout.data_base + i * layout.data_stride);
        put_number(header + BUFFER_LENGTH, 4, layout.capacity);
        put_number(header + PACKETS, 4, setup->packets_per_urb);
        put_number(header + COOKIE, 8, i);
    }
}

struct answer model_open(const struct setup *setup, struct bytes block, size_t image_length, struct ledger *ledger)
{
    if (setup->policy > ERROR || setup->tag > 1)
        return refused(NOT_AN_IMAGE, 0);
    uint32_t number = opening_refusal(setup, block.length);
    if (number != 0)
        return refused(number, 0);
    if (image_length < 200 + 5 * setup->slots)
        return refused(NOT_AN_IMAGE, 0);
    memset(ledger, 0, sizeof *ledger);
    ledger->setup = *setup;
    ledger->queued = setup->slots;
    for (uint32_t i = 0; i < setup->slots; i++)
        ledger->queue[i] = i;
    write_headers(setup, block.at);
    return answered(DONE, 0);
}
