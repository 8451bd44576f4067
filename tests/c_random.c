/* Seeded random numbers, setups, ledgers and bytes. */
#include "c_random.h"
#include <string.h>

/* splitmix64. */
uint64_t draw(struct random *r)
{
    uint64_t z = r->state += 0x9e3779b97f4a7c15u;
    z = (z ^ (z >> 30)) * 0xbf58476d1ce4e5b9u;
    z = (z ^ (z >> 27)) * 0x94d049bb133111ebu;
    return z ^ (z >> 31);
}

uint64_t below(struct random *r, uint64_t limit)
{
    return draw(r) % limit;
}

bool one_in(struct random *r, uint64_t count)
{
    return below(r, count) == 0;
}

void draw_bytes(struct random *r, struct lent *slice)
{
    for (size_t at = 0; at < slice->length; at += 8)
        put_both(slice, at, slice->length - at < 8 ? (unsigned)(slice->length - at) : 8, draw(r));
}

/* A multiple of 64 that opening accepts as base for a block of this total. */
static uint64_t draw_base(struct random *r, uint64_t total, bool is_tagged)
{
    uint64_t limit = (uint64_t)1 << 56, largest = (is_tagged ? limit : 0) - total;
    uint64_t base = one_in(r, 4) ? 0 : one_in(r, 4) ? largest : below(r, largest / 64) * 64;
    return is_tagged ? below(r, 256) * limit + base : base;
}

/* A frame size that opening accepts: mostly 1; or small, the whole packet, just above its half, or any. */
static uint64_t draw_frame(struct random *r, uint64_t packet_bytes)
{
    switch (below(r, 8)) {
    case 0: return 1 + below(r, packet_bytes < 8 ? packet_bytes : 8);
    case 1: return packet_bytes;
    case 2: return 1 + packet_bytes / 2;
    case 3: return 1 + below(r, packet_bytes);
    default: return 1;
    }
}

struct setup draw_setup(struct random *r)
{
    static const uint64_t slots[] = {2, 2, 3, 3, 4, 4, 5, 7, 8, 16, 63, 64, 255, 256};
    static const uint64_t packets[] = {1, 1, 2, 3, 8, 127, 128};
    static const uint64_t sizes[] = {1, 2, 63, 64, 65, 100, 192, 1023, 1024, 3072, 49152};
    struct setup s;
    s.frame_bytes = 1;
    do {
        s.slots = slots[below(r, 14)];
        s.packets_per_urb = packets[below(r, 7)];
        s.packet_bytes = sizes[below(r, 11)];
    } while (layout_of(&s).total > 40000);
    s.endpoint = (uint8_t)draw(r);
    s.policy = below(r, 3);
    s.silence_byte = (uint8_t)draw(r);
    s.tag = one_in(r, 3);
    s.base = draw_base(r, layout_of(&s).total, s.tag);
    s.frame_bytes = draw_frame(r, s.packet_bytes);
    return s;
}

uint64_t draw_total(struct random *r)
{
    switch (below(r, 3)) {
    case 0: return below(r, 100);
    case 1: return draw(r);
    default: return 0 - 1 - below(r, 100);
    }
}

struct ledger draw_ledger(struct random *r, const struct setup *setup)
{
    struct ledger l;
    uint64_t home = below(r, 101); /* of a hundred slots, so many are home */
    memset(&l, 0, sizeof l);
    l.setup = *setup;
    l.hand = (enum hand)below(r, 4);
    l.slot = l.hand == IDLE ? 0 : below(r, setup->slots);
    l.left = l.hand == SILENT ? below(r, 2) : 0;
    for (uint32_t i = 0; i < setup->slots; i++) {
        if (state_of(&l, i) == FILLING)
            continue;
        l.marks[i] = below(r, 100) < home ? HOME : one_in(r, 2) ? OUT : OUT_WITH_DISCARD;
        if (l.marks[i] != HOME)
            continue;
        size_t at = below(r, l.queued + 1);
        l.queue[l.queued++] = l.queue[at];
        l.queue[at] = i;
    }
    l.started = one_in(r, 2);
    l.armed = one_in(r, 2);
    for (int k = 0; k < COUNTERS; k++)
        l.totals[k] = draw_total(r);
    return l;
}

static uint64_t draw_errno(struct random *r)
{
    static const uint32_t known[] = {0, 1, 5, 11, 12, 13, 19, 22, 25, 108, UINT32_MAX};
    return one_in(r, 8) ? (uint32_t)draw(r) : known[below(r, 11)];
}

/* The address of a header; or one beside it, with another tag, or any. */
static uint64_t draw_address(struct random *r, const struct ledger *ledger)
{
    struct layout layout = layout_of(&ledger->setup);
    uint64_t slot = below(r, ledger->setup.slots), tag = draw(r) << 56;
    for (unsigned k = 0; ledger->marks[slot] == HOME && k < 6; k++)
        slot = below(r, ledger->setup.slots);
    uint64_t address = ledger->setup.base + slot * layout.header_stride;
    switch (below(r, 40)) {
    case 0: return address + 1;
    case 1: return ledger->setup.base - 1 - below(r, 200);
    case 2: return ledger->setup.base + (ledger->setup.slots + below(r, 3)) * layout.header_stride;
    case 3: return draw(r);
    case 4:
    case 5: return address ^ tag;
    default: return address;
    }
}

uint64_t draw_number(struct random *r, enum call call, const struct ledger *ledger)
{
    uint64_t capacity = layout_of(&ledger->setup).capacity;
    if (call == REAPED_ADDRESS)
        return draw_address(r, ledger);
    if (call == SUBMITTED_ERRNO || call == REAPED_ERRNO)
        return draw_errno(r);
    return one_in(r, 12) ? draw_total(r) : one_in(r, 6) ? capacity + below(r, 2) : below(r, capacity + 1);
}

struct lent draw_lengths(struct random *r, const struct setup *setup)
{
    uint64_t count = one_in(r, 10) ? below(r, 300) : setup->packets_per_urb;
    struct lent list = lend(8 * count + (one_in(r, 3) ? below(r, 8) : 0), 0);
    draw_bytes(r, &list);
    for (uint64_t k = 0; k < count; k++)
        put_both(&list, 8 * k, 8, below(r, setup->packet_bytes + 1));
    if (count != 0 && one_in(r, 8))
        put_both(&list, 8 * below(r, count), 8, one_in(r, 2) ? setup->packet_bytes + 1 : draw(r));
    return list;
}

void draw_completion(struct random *r, const struct ledger *ledger, uint64_t slot, struct lent *block)
{
    static const int32_t statuses[] = {0, 0, 0, 0, 0, 0, -2, -18, -19, -71, -108, -104};
    size_t header = slot * layout_of(&ledger->setup).header_stride;
    put_both(block, header + STATUS, 4, one_in(r, 16) ? draw(r) : (uint32_t)statuses[below(r, 12)]);
    put_both(block, header + ACTUAL_LENGTH, 4, one_in(r, 8) ? draw(r) : below(r, 1000));
    put_both(block, header + ERROR_COUNT, 4, one_in(r, 8) ? draw(r) : below(r, 9));
    put_both(block, header + COOKIE, 8, one_in(r, 40) ? slot ^ ((uint64_t)1 << below(r, 64)) : slot);
    for (uint64_t k = 0; k < ledger->setup.packets_per_urb; k++) {
        size_t descriptor = header + DESCRIPTORS + DESCRIPTOR * k;
        uint64_t sent = below(r, ledger->setup.packet_bytes + 1);
        put_both(block, descriptor + PACKET_ACTUAL, 4, one_in(r, 8) ? draw(r) : sent);
        if (one_in(r, 64))
            put_both(block, descriptor + PACKET_LENGTH, 4, draw(r));
    }
}
