/*
 * The image of the model's ledger. Reading tests each number where it stands, in the words of refusal 8 and of the
 * image's layout; it does not compare with a written image.
 */
#include "c_image.h"
#include "c_bytes.h"
#include <string.h>

enum { HEADER_NUMBERS = 6, SETUP_NUMBERS = 14 };

size_t queue_at(uint64_t n)
{
    return STATES_AT + n;
}

size_t counters_at(uint64_t n)
{
    return queue_at(n) + 4 * n;
}

size_t image_size(uint64_t n)
{
    return counters_at(n) + 8 * COUNTERS;
}

void write_image(const struct ledger *ledger, uint8_t *image)
{
    const struct setup *s = &ledger->setup;
    uint64_t n = s->slots;
    uint64_t header[HEADER_NUMBERS] = {n, ledger->queued, SETUP_AT, STATES_AT, queue_at(n), counters_at(n)};
    uint64_t setup[SETUP_NUMBERS] = {n, s->packets_per_urb, s->packet_bytes, s->endpoint, s->policy, s->silence_byte,
                                     s->base, s->tag, s->frame_bytes, ledger->hand, ledger->slot, ledger->left,
                                     ledger->started, ledger->armed};
    for (int k = 0; k < HEADER_NUMBERS; k++)
        put_number(image + 4 * k, 4, header[k]);
    for (int k = 0; k < SETUP_NUMBERS; k++)
        put_number(image + SETUP_AT + 8 * k, 8, setup[k]);
    for (uint64_t i = 0; i < n; i++) {
        image[STATES_AT + i] = state_of(ledger, i);
        put_number(image + queue_at(n) + 4 * i, 4, i < ledger->queued ? ledger->queue[i] : 0);
    }
    for (int k = 0; k < COUNTERS; k++)
        put_number(image + counters_at(n) + 8 * k, 8, ledger->totals[k]);
}

/* Opening's values, of which opening would refuse none; and the header that goes with them. */
static bool read_setup(const uint8_t *bytes, size_t length, struct ledger *ledger)
{
    uint64_t v[9], offsets[4], n;
    if (length < image_size(2))
        return false;
    for (int k = 0; k < 9; k++)
        v[k] = number_at(bytes + SETUP_AT + 8 * k, 8);
    n = v[0];
    if (v[3] > 255 || v[4] > ERROR || v[5] > 255 || v[7] > 1)
        return false;
    ledger->setup = (struct setup){n, v[1], v[2], (uint8_t)v[3], v[4], (uint8_t)v[5], v[6], v[7], v[8]};
    if (opening_refusal(&ledger->setup, layout_of(&ledger->setup).total) != 0 || length < image_size(n))
        return false;
    for (int k = 0; k < 4; k++)
        offsets[k] = number_at(bytes + 8 + 4 * k, 4);
    ledger->queued = number_at(bytes + 4, 4);
    return number_at(bytes, 4) == n && ledger->queued <= n && offsets[0] == SETUP_AT && offsets[1] == STATES_AT
           && offsets[2] == queue_at(n) && offsets[3] == counters_at(n);
}

static bool read_hand(const uint8_t *bytes, struct ledger *ledger)
{
    uint64_t v[5];
    for (int k = 0; k < 5; k++)
        v[k] = number_at(bytes + HAND_AT + 8 * k, 8);
    if (v[0] > SILENT || v[3] > 1 || v[4] > 1)
        return false;
    if (v[1] >= (v[0] == IDLE ? 1 : ledger->setup.slots) || v[2] > (v[0] == SILENT ? 1 : 0))
        return false;
    ledger->hand = (enum hand)v[0];
    ledger->slot = v[1];
    ledger->left = v[2];
    ledger->started = v[3];
    ledger->armed = v[4];
    return true;
}

/* The hand's slot is the only one Filling. */
static bool read_states(const uint8_t *states, struct ledger *ledger)
{
    for (uint64_t i = 0; i < ledger->setup.slots; i++) {
        bool is_in_hand = ledger->hand != IDLE && ledger->slot == i;
        if (states[i] > DISCARDING || (states[i] == FILLING) != is_in_hand)
            return false;
        ledger->marks[i] = states[i] == IN_FLIGHT ? OUT : states[i] == DISCARDING ? OUT_WITH_DISCARD : HOME;
    }
    return true;
}

/* Each Free slot is once in the queue, and no other slot is there; unused places are zero. */
static bool read_queue(const uint8_t *places, struct ledger *ledger)
{
    unsigned times[MOST_SLOTS] = {0};
    for (uint64_t k = 0; k < ledger->setup.slots; k++) {
        uint64_t slot = number_at(places + 4 * k, 4);
        if (slot >= (k < ledger->queued ? ledger->setup.slots : 1))
            return false;
        ledger->queue[k] = (uint32_t)slot;
        if (k < ledger->queued)
            times[slot]++;
    }
    for (uint64_t i = 0; i < ledger->setup.slots; i++)
        if (times[i] != (state_of(ledger, i) == FREE ? 1 : 0))
            return false;
    return true;
}

bool read_image(const uint8_t *bytes, size_t length, struct ledger *ledger)
{
    memset(ledger, 0, sizeof *ledger);
    if (!read_setup(bytes, length, ledger) || !read_hand(bytes, ledger))
        return false;
    uint64_t n = ledger->setup.slots;
    if (!read_states(bytes + STATES_AT, ledger) || !read_queue(bytes + queue_at(n), ledger))
        return false;
    for (int k = 0; k < COUNTERS; k++)
        ledger->totals[k] = number_at(bytes + counters_at(n) + 8 * k, 8);
    return true;
}
