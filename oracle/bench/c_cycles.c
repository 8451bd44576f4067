/* The hot cycle as a C host makes it: every call through include/usbfs_iso.h, the record in its image. It has the
 * parameters of the proved cycles (crates/bench), so that the benchmark runs all of them alike. */
#include <stdint.h>

#include "usbfs_iso.h"

enum { IMAGE_MOST = USBFS_ISO_IMAGE_SIZE(256), FRAME_BYTES = 1, EAGAIN_NUMBER = 11 };

uint64_t usbfs_iso_c_cycles(size_t packets, size_t packet_bytes, size_t base, const size_t *addresses, size_t slots,
                            size_t rounds, void *block, size_t block_len)
{
    static unsigned char image[IMAGE_MOST];
    uint64_t numbers[8];
    uint64_t completed = 0;
    size_t size = (size_t)usbfs_iso_image_size(slots);
    size_t i = 0;

    if (usbfs_iso_open(slots, packets, packet_bytes, 1, USBFS_ISO_POLICY_CONTINUE, 0, base, 0, FRAME_BYTES, block,
                       block_len, image, size, numbers, sizeof numbers) != 0)
        return 0;
    for (size_t k = 0; k < rounds; k++) {
        if (k >= slots) {
            usbfs_iso_reaped_address(image, size, addresses[i], block, block_len, numbers, sizeof numbers);
            completed += numbers[USBFS_ISO_OUT_KIND] == USBFS_ISO_KIND_COMPLETION;
            usbfs_iso_reaped_errno(image, size, EAGAIN_NUMBER, block, block_len, numbers, sizeof numbers);
        }
        usbfs_iso_turn(image, size, block, block_len, numbers, sizeof numbers);
        usbfs_iso_commit_full(image, size, block, block_len, numbers, sizeof numbers);
        usbfs_iso_submitted_accepted(image, size, block, block_len, numbers, sizeof numbers);
        i = i + 1 == slots ? 0 : i + 1;
    }
    return completed;
}
