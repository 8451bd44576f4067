/*
 * Stands between the player and the library (the linker's --wrap), and checks the image after every call: submitted =
 * completed + discarded + out, and every slot is out, in the queue or in hand.
 */
#include "invariants.h"
#include "../c_bytes.h"
#include <stdio.h>
#include <string.h>
#include <usbfs_iso.h>

enum { QUEUE_LENGTH_AT = 4, FRAME_BYTES_AT = 88, HAND_KIND_AT = 96, STATES_AT = 136, IN_FLIGHT = 2 };

struct invariants invariants;

void check_that(int holds, const char *what)
{
    invariants.wrong += !holds;
    if (!holds)
        fprintf(stderr, "invariants: after call %lu: not so: %s\n", (unsigned long)invariants.calls, what);
}

static uint64_t counter(const uint8_t *image, uint64_t slots, enum usbfs_iso_counter which)
{
    return number_at(image + USBFS_ISO_COUNTER_AT(slots, which), 8);
}

static void check(const uint8_t *image)
{
    uint64_t slots = number_at(image, 4), queued = number_at(image + QUEUE_LENGTH_AT, 4);
    uint64_t submitted = counter(image, slots, USBFS_ISO_COUNTER_URBS_SUBMITTED);
    uint64_t completed = counter(image, slots, USBFS_ISO_COUNTER_URBS_COMPLETED);
    uint64_t in_hand = number_at(image + HAND_KIND_AT, 8) != 0, out = 0;
    for (uint64_t k = 0; k < slots; k++)
        out += image[STATES_AT + k] >= IN_FLIGHT;
    invariants.calls++;
    invariants.out = out;
    invariants.frame_bytes = number_at(image + FRAME_BYTES_AT, 8);
    invariants.transferred = counter(image, slots, USBFS_ISO_COUNTER_BYTES_TRANSFERRED);
    check_that(submitted == completed + invariants.discarded + out, "submitted = completed + discarded + out");
    check_that(slots == out + queued + in_hand, "every slot is out, in the queue or in hand");
    if (invariants.checked != NULL)
        invariants.checked();
}

/* The library's function under its own name, and the one that the player gets. */
#define CHECKED(name, parameters, arguments)                                                                          \
    uint32_t __real_##name parameters;                                                                                \
    uint32_t __wrap_##name parameters;                                                                                \
    uint32_t __wrap_##name parameters                                                                                 \
    {                                                                                                                 \
        uint32_t refusal = __real_##name arguments;                                                                   \
        check(image);                                                                                                 \
        return refusal;                                                                                               \
    }

CHECKED(usbfs_iso_turn, (void *image, size_t image_len, void *block, size_t block_len, void *out, size_t out_len),
        (image, image_len, block, block_len, out, out_len))
CHECKED(usbfs_iso_commit_packets,
        (void *image, size_t image_len, const void *lengths, size_t lengths_len, void *block, size_t block_len,
         void *out, size_t out_len),
        (image, image_len, lengths, lengths_len, block, block_len, out, out_len))
CHECKED(usbfs_iso_submitted_accepted,
        (void *image, size_t image_len, void *block, size_t block_len, void *out, size_t out_len),
        (image, image_len, block, block_len, out, out_len))
CHECKED(usbfs_iso_submitted_errno,
        (void *image, size_t image_len, uint32_t error, void *block, size_t block_len, void *out, size_t out_len),
        (image, image_len, error, block, block_len, out, out_len))
CHECKED(usbfs_iso_reaped_errno,
        (void *image, size_t image_len, uint32_t error, const void *block, size_t block_len, void *out,
         size_t out_len),
        (image, image_len, error, block, block_len, out, out_len))
CHECKED(usbfs_iso_start, (void *image, size_t image_len, void *out, size_t out_len), (image, image_len, out, out_len))
CHECKED(usbfs_iso_stop, (void *image, size_t image_len, void *list, size_t list_len, void *out, size_t out_len),
        (image, image_len, list, list_len, out, out_len))
CHECKED(usbfs_iso_finish, (void *image, size_t image_len, void *out, size_t out_len), (image, image_len, out, out_len))

/* A URB that came back: with Completion, or with 13, which counts it. */
uint32_t __real_usbfs_iso_reaped_address(void *image, size_t image_len, uint64_t address, const void *block,
                                         size_t block_len, void *out, size_t out_len);
uint32_t __wrap_usbfs_iso_reaped_address(void *image, size_t image_len, uint64_t address, const void *block,
                                         size_t block_len, void *out, size_t out_len);
uint32_t __wrap_usbfs_iso_reaped_address(void *image, size_t image_len, uint64_t address, const void *block,
                                         size_t block_len, void *out, size_t out_len)
{
    uint64_t numbers[USBFS_ISO_OUT_NUMBERS] = {0};
    uint32_t refusal = __real_usbfs_iso_reaped_address(image, image_len, address, block, block_len, out, out_len);
    memcpy(numbers, out, out_len < sizeof numbers ? out_len : sizeof numbers);
    int is_discarded = numbers[USBFS_ISO_OUT_KIND] == USBFS_ISO_KIND_COMPLETION && numbers[USBFS_ISO_OUT_DISCARDED];
    check_that(refusal == 0 || refusal == USBFS_ISO_DISCONNECTED, "a URB that came back is one of the ring's");
    invariants.discarded += (uint64_t)is_discarded;
    if (invariants.returned != NULL)
        invariants.returned(is_discarded);
    check(image);
    return refusal;
}
