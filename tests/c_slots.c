/* What the model's calls do to a slot. */
#include "c_slots.h"
#include "c_bytes.h"
#include <string.h>

enum state state_of(const struct ledger *ledger, uint64_t slot)
{
    if (ledger->hand != IDLE && ledger->slot == slot)
        return FILLING;
    return ledger->marks[slot] == OUT ? IN_FLIGHT : ledger->marks[slot] == OUT_WITH_DISCARD ? DISCARDING : FREE;
}

size_t count_out(const struct ledger *ledger)
{
    size_t count = 0;
    for (size_t i = 0; i < ledger->setup.slots; i++)
        count += ledger->marks[i] != HOME;
    return count;
}

void set_hand(struct ledger *ledger, enum hand hand, uint64_t slot, uint64_t left)
{
    ledger->hand = hand;
    ledger->slot = slot;
    ledger->left = left;
}

void return_slot(struct ledger *ledger, uint64_t slot)
{
    ledger->marks[slot] = HOME;
    ledger->queue[ledger->queued++] = (uint32_t)slot;
}

void put_back(struct ledger *ledger)
{
    return_slot(ledger, ledger->slot);
    set_hand(ledger, IDLE, 0, 0);
}

static uint64_t take_front(struct ledger *ledger)
{
    uint64_t slot = ledger->queue[0];
    ledger->queued--;
    memmove(ledger->queue, ledger->queue + 1, ledger->queued * sizeof ledger->queue[0]);
    return slot;
}

struct answer take_to_fill(struct ledger *ledger)
{
    if (ledger->queued == 0) {
        set_hand(ledger, IDLE, 0, 0);
        return answered(NOTHING, 0);
    }
    uint64_t slot = take_front(ledger);
    set_hand(ledger, HELD, slot, 0);
    return answered(SLOT, slot);
}

uint8_t *header_in(const struct ledger *ledger, uint64_t slot, uint8_t *block)
{
    return block + slot * layout_of(&ledger->setup).header_stride;
}

void write_lengths(const struct ledger *ledger, uint64_t slot, const uint64_t *lengths, uint8_t *block)
{
    uint8_t *header = header_in(ledger, slot, block);
    uint64_t total = 0;
    for (uint64_t k = 0; k < ledger->setup.packets_per_urb; k++) {
        uint8_t *descriptor = header + DESCRIPTORS + DESCRIPTOR * k;
        put_number(descriptor + PACKET_LENGTH, 4, lengths[k]);
        put_number(descriptor + PACKET_ACTUAL, 4, 0);
        put_number(descriptor + PACKET_STATUS, 4, 0);
        total += lengths[k];
    }
    put_number(header + BUFFER_LENGTH, 4, total);
    put_number(header + ACTUAL_LENGTH, 4, 0);
    put_number(header + STATUS, 4, 0);
    put_number(header + ERROR_COUNT, 4, 0);
}

void write_spread(const struct ledger *ledger, uint64_t slot, uint64_t bytes, uint8_t *block)
{
    uint64_t lengths[MOST_PACKETS], rest = bytes;
    uint64_t fill = packet_fill(ledger->setup.packet_bytes, ledger->setup.frame_bytes);
    for (uint64_t k = 0; k < ledger->setup.packets_per_urb; k++) {
        lengths[k] = rest < fill ? rest : fill;
        rest -= lengths[k];
    }
    write_lengths(ledger, slot, lengths, block);
}

struct answer take_silent(struct ledger *ledger, uint64_t left, uint8_t *block)
{
    struct layout layout = layout_of(&ledger->setup);
    uint64_t slot = take_front(ledger);
    memset(block + layout.data_base + slot * layout.data_stride, ledger->setup.silence_byte, layout.capacity);
    write_spread(ledger, slot, layout.capacity, block);
    set_hand(ledger, SILENT, slot, left);
    return answered(SUBMIT, slot);
}
