/*
 * The line of an opening or a call: what it answered, and what the image and the block are then. All but the answer is
 * read from the image's bytes; usbfs_iso.h has their places.
 */
#include "runs.h"
#include <inttypes.h>

/* Places in an image. Those behind the states depend on the number of slots. */
enum {
    QUEUE_LENGTH_AT = 4,
    HAND_AT = 96,
    HAND_SLOT_AT = 104,
    HAND_LEFT_AT = 112,
    STARTED_AT = 120,
    ARMED_AT = 128,
    STATES_AT = 136
};

uint64_t number_at(const uint8_t *bytes, unsigned width)
{
    uint64_t value = 0;
    for (unsigned k = 0; k < width; k++)
        value |= (uint64_t)bytes[k] << (8 * k);
    return value;
}

/* How many slots are with the kernel: InFlight (2) or Discarding (3). */
uint64_t out_count(const uint8_t *image)
{
    uint64_t count = 0, slots = number_at(image, 4);
    for (uint64_t i = 0; i < slots; i++)
        count += image[STATES_AT + i] >= 2;
    return count;
}

static uint32_t checksum(const uint8_t *bytes, size_t length)
{
    uint32_t sum = 0;
    for (size_t k = 0; k < length; k++)
        sum = sum * UINT32_C(16777619) + bytes[k];
    return sum;
}

/* `Refused:number`, with the value of those that have one. */
static void print_refusal(const struct run *run)
{
    printf("Refused:%" PRIu32, run->refusal);
    if (run->refusal == USBFS_ISO_USBFS_MEMORY || run->refusal == USBFS_ISO_IO
        || run->refusal == USBFS_ISO_UNDERRUN)
        printf(",%" PRIu64, run->out[USBFS_ISO_OUT_VALUE]);
}

static void print_completion(const uint64_t *out)
{
    printf("Completion:%" PRId64, (int64_t)out[USBFS_ISO_OUT_STATUS]);
    for (int k = USBFS_ISO_OUT_ACTUAL; k <= USBFS_ISO_OUT_DISCARDED; k++)
        printf(",%" PRIu64, out[k]);
}

/* stop's Done: how many slots it listed, and which. */
static void print_stopped(const struct run *run)
{
    uint64_t count = run->out[USBFS_ISO_OUT_VALUE];
    printf("Done:%" PRIu64, count);
    for (uint64_t k = 0; k < count; k++)
        printf(",%" PRIu64, run->list[k]);
}

static void print_answer(const struct run *run, enum call_kind kind)
{
    switch (run->out[USBFS_ISO_OUT_KIND]) {
    case USBFS_ISO_KIND_DONE:
        if (kind == STOP)
            print_stopped(run);
        else
            printf("Done");
        break;
    case USBFS_ISO_KIND_NOTHING:
        printf("Nothing");
        break;
    case USBFS_ISO_KIND_SLOT:
        printf("Slot:%" PRIu64, run->out[USBFS_ISO_OUT_VALUE]);
        break;
    case USBFS_ISO_KIND_SUBMIT:
        printf("Submit:%" PRIu64, run->out[USBFS_ISO_OUT_VALUE]);
        break;
    case USBFS_ISO_KIND_COMPLETION:
        print_completion(run->out);
        break;
    case USBFS_ISO_KIND_FOREIGN:
        printf("Foreign");
        break;
    case USBFS_ISO_KIND_YES:
        printf("Yes");
        break;
    }
}

static void print_hand(const uint8_t *image)
{
    static const char *const names[] = {"Idle", "Held", "Sending", "Silent"};
    uint64_t kind = number_at(image + HAND_AT, 8);
    printf(" %s", names[kind]);
    if (kind != 0)
        printf(":%" PRIu64, number_at(image + HAND_SLOT_AT, 8));
    if (kind == 3)
        printf(",%" PRIu64, number_at(image + HAND_LEFT_AT, 8));
}

/* The flags and the eight counters. */
static void print_totals(const uint8_t *image, uint64_t slots)
{
    printf(" %" PRIu64 "%" PRIu64, number_at(image + STARTED_AT, 8), number_at(image + ARMED_AT, 8));
    for (uint64_t k = 0; k < USBFS_ISO_COUNTERS; k++)
        printf("%c%" PRIu64, k == 0 ? ' ' : ',', number_at(image + USBFS_ISO_COUNTER_AT(slots, k), 8));
}

/* The states, and the queue behind them, front first. */
static void print_slots(const uint8_t *image, uint64_t slots)
{
    uint64_t queued = number_at(image + QUEUE_LENGTH_AT, 4);
    putchar(' ');
    for (uint64_t i = 0; i < slots; i++)
        printf("%u", (unsigned)image[STATES_AT + i]);
    if (queued == 0)
        printf(" -");
    for (uint64_t k = 0; k < queued; k++)
        printf("%c%" PRIu64, k == 0 ? ' ' : ',', number_at(image + STATES_AT + slots + 4 * k, 4));
}

/* The image's part of a line. */
static void print_record(const uint8_t *image)
{
    uint64_t slots = number_at(image, 4);
    print_hand(image);
    printf(" %" PRIu64, out_count(image));
    print_totals(image, slots);
    print_slots(image, slots);
}

/* Whether the image is known to be that of a sound record: not after a 31, nor after an opening that was refused. */
bool has_record(const struct run *run, enum call_kind kind)
{
    return run->refusal == 0 || (run->refusal != USBFS_ISO_NOT_AN_IMAGE && kind != OPENING);
}

/* The line of call `number` of a run; 0 is the opening. */
void print_line(const struct run *run, uint64_t number, enum call_kind kind)
{
    printf("%" PRIu64 " ", number);
    if (run->refusal != 0)
        print_refusal(run);
    else
        print_answer(run, kind);
    if (has_record(run, kind))
        print_record(run->image);
    printf(" %" PRIu32 " %" PRIu32 "\n", checksum(run->image, sizeof run->image),
           checksum(run->block, run->block_length));
}
