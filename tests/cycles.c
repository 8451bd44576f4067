/* The hot cycle by value (crates/bench), for an instruction count: cycles SLOTS COUNT makes that many cycles of 8 packets. */
#include <stdint.h>
#include <stdlib.h>

#include "usbfs_iso.h"

enum { PACKETS = 8, BYTES = 192 };

uint64_t usbfs_iso_cycles(uint64_t packets, uint64_t packet_bytes, uint64_t base, const uint64_t *addresses, size_t slots,
                          uint64_t rounds, void *block, size_t block_len);

int main(int argc, char **argv)
{
    uint64_t layout[USBFS_ISO_LAYOUT_NUMBERS], addresses[256], slots, count, total;
    unsigned char *block;

    if (argc != 3)
        return 2;
    slots = strtoull(argv[1], NULL, 10);
    count = strtoull(argv[2], NULL, 10);
    if (slots > 256 || usbfs_iso_layout(slots, PACKETS, BYTES, 1, layout, sizeof layout) != 0)
        return 2;
    total = layout[USBFS_ISO_LAYOUT_TOTAL];
    block = aligned_alloc(layout[USBFS_ISO_LAYOUT_ALIGNMENT], total);
    if (block == NULL)
        return 2;
    for (uint64_t i = 0; i < slots; i++)
        addresses[i] = (uintptr_t)block + i * layout[USBFS_ISO_LAYOUT_HEADER_STRIDE];
    /* The first rounds send each slot for the first time: so many come back as rounds follow. */
    return usbfs_iso_cycles(PACKETS, BYTES, (uintptr_t)block, addresses, slots, slots + count, block, total) == count ? 0 : 1;
}
