/* The model's ten calls, each by its rule in the paper. */
#include "c_slots.h"
#include "c_bytes.h"

struct answer answered(enum kind kind, uint64_t value)
{
    return (struct answer){0, {kind, value}};
}

struct answer refused(uint32_t number, uint64_t value)
{
    return (struct answer){number, {REFUSAL, value}};
}

static struct answer turn(struct ledger *ledger, uint8_t *block)
{
    if (!ledger->started || !ledger->armed || count_out(ledger) != 0)
        return take_to_fill(ledger);
    ledger->armed = false;
    ledger->totals[UNDERRUNS]++;
    if (ledger->setup.policy == ERROR)
        return refused(19, ledger->totals[UNDERRUNS]);
    return ledger->setup.policy == FILL_SILENCE ? take_silent(ledger, 1, block) : take_to_fill(ledger);
}

static struct answer send_slot(struct ledger *ledger)
{
    set_hand(ledger, SENDING, ledger->slot, 0);
    return answered(SUBMIT, ledger->slot);
}

static struct answer commit(struct ledger *ledger, uint64_t bytes, uint8_t *block)
{
    if (bytes > layout_of(&ledger->setup).capacity) {
        put_back(ledger);
        return refused(10, 0);
    }
    write_spread(ledger, ledger->slot, bytes, block);
    return send_slot(ledger);
}

static struct answer commit_packets(struct ledger *ledger, struct bytes list, uint8_t *block)
{
    uint64_t lengths[MOST_PACKETS], count = list.length / 8;
    uint32_t number = count != ledger->setup.packets_per_urb ? 11 : 0;
    for (uint64_t k = 0; number != 11 && k < count; k++) {
        lengths[k] = number_at(list.at + 8 * k, 8);
        if (lengths[k] > ledger->setup.packet_bytes)
            number = 12;
    }
    if (number != 0) {
        put_back(ledger);
        return refused(number, 0);
    }
    write_lengths(ledger, ledger->slot, lengths, block);
    return send_slot(ledger);
}

static struct answer accepted(struct ledger *ledger, uint8_t *block)
{
    int64_t length = signed_at(header_in(ledger, ledger->slot, block) + BUFFER_LENGTH);
    bool is_silent = ledger->hand == SILENT;
    ledger->marks[ledger->slot] = OUT;
    ledger->totals[SUBMITTED]++;
    ledger->totals[BYTES_SUBMITTED] += length > 0 ? (uint64_t)length : 0;
    ledger->armed = true;
    if (is_silent && ledger->left == 1 && ledger->queued != 0)
        return take_silent(ledger, 0, block);
    if (is_silent)
        return take_to_fill(ledger);
    set_hand(ledger, IDLE, 0, 0);
    return answered(DONE, 0);
}

/* What an errno means: of a submission, with the ring's payload bytes, or of a reaping. */
static struct answer errno_refusal(const struct ledger *ledger, uint32_t error, bool of_submission)
{
    const struct setup *s = &ledger->setup;
    if (error == 19 || error == 108)
        return refused(13, 0);
    if (error == 12 && of_submission)
        return refused(14, s->slots * s->packets_per_urb * s->packet_bytes);
    if (error == 13 || error == 1)
        return refused(15, 0);
    return error == 25 ? refused(16, 0) : refused(17, error);
}

static struct answer submitted_errno(struct ledger *ledger, uint32_t error)
{
    put_back(ledger);
    return errno_refusal(ledger, error, true);
}

static struct answer reaped_errno(const struct ledger *ledger, uint32_t error)
{
    return error == 11 ? answered(NOTHING, 0) : errno_refusal(ledger, error, false);
}

/* The slot whose header an address names in this block, or MOST_SLOTS where it is foreign. */
static uint64_t named_slot(const struct ledger *ledger, uint64_t address, uint8_t *block)
{
    uint64_t mask = ledger->setup.tag ? ((uint64_t)1 << 56) - 1 : UINT64_MAX;
    uint64_t stride = layout_of(&ledger->setup).header_stride, base = ledger->setup.base & mask;
    uint64_t offset = (address & mask) - base;
    if ((address & mask) < base || offset >= ledger->setup.slots * stride || offset % stride != 0)
        return MOST_SLOTS;
    return number_at(block + offset + COOKIE, 8) == offset / stride ? offset / stride : MOST_SLOTS;
}

/* status, actual, requested, short, packet errors, discarded or not. */
static struct answer completion(const struct ledger *ledger, uint64_t slot, uint8_t *block)
{
    const uint8_t *header = header_in(ledger, slot, block);
    int64_t actual = signed_at(header + ACTUAL_LENGTH), errors = signed_at(header + ERROR_COUNT);
    uint64_t requested = 0, missing = 0;
    for (uint64_t k = 0; k < ledger->setup.packets_per_urb; k++) {
        const uint8_t *descriptor = header + DESCRIPTORS + DESCRIPTOR * k;
        uint64_t length = number_at(descriptor + PACKET_LENGTH, 4), sent = number_at(descriptor + PACKET_ACTUAL, 4);
        requested += length;
        missing += length > sent ? length - sent : 0;
    }
    struct answer done = answered(COMPLETION, (uint64_t)signed_at(header + STATUS));
    done.numbers[2] = actual > 0 ? (uint64_t)actual : 0;
    done.numbers[3] = requested;
    done.numbers[4] = missing;
    done.numbers[5] = errors > 0 ? (uint64_t)errors : 0;
    done.numbers[6] = ledger->marks[slot] == OUT_WITH_DISCARD;
    return done;
}

static struct answer reaped_address(struct ledger *ledger, uint64_t address, uint8_t *block)
{
    uint64_t slot = named_slot(ledger, address, block);
    if (slot == MOST_SLOTS)
        return answered(FOREIGN, 0);
    if (state_of(ledger, slot) == FREE)
        return refused(18, 0);
    struct answer done = completion(ledger, slot, block);
    int64_t status = (int64_t)done.numbers[1];
    return_slot(ledger, slot);
    if (done.numbers[6] == 1)
        return done;
    ledger->totals[COMPLETED]++;
    ledger->totals[TRANSFERRED] += done.numbers[2];
    ledger->totals[SHORT_BYTES] += done.numbers[4];
    ledger->totals[PACKET_ERRORS] += done.numbers[5];
    ledger->totals[URB_ERRORS] += status != 0;
    return status == -19 || status == -108 ? refused(13, 0) : done;
}

static struct answer start(struct ledger *ledger)
{
    if (!ledger->started)
        ledger->armed = false;
    ledger->started = true;
    return answered(DONE, 0);
}

static struct answer stop(struct ledger *ledger, struct bytes list)
{
    uint64_t count = 0;
    for (uint64_t i = 0; i < ledger->setup.slots; i++)
        count += ledger->marks[i] == OUT;
    if (list.length / 8 < count)
        return refused(20, 0);
    count = 0;
    for (uint64_t i = 0; i < ledger->setup.slots; i++)
        if (ledger->marks[i] == OUT) {
            ledger->marks[i] = OUT_WITH_DISCARD;
            put_number(list.at + 8 * count++, 8, i);
        }
    ledger->started = ledger->armed = false;
    return answered(DONE, count);
}

static bool is_right_hand(enum hand hand, enum call call)
{
    if (call == COMMIT || call == COMMIT_FULL || call == COMMIT_PACKETS || call == GIVE_BACK)
        return hand == HELD;
    if (call == ACCEPTED || call == SUBMITTED_ERRNO)
        return hand == SENDING || hand == SILENT;
    return hand == IDLE;
}

struct answer model_call(struct ledger *ledger, enum call call, uint64_t number, struct bytes list, struct bytes block)
{
    struct layout layout = layout_of(&ledger->setup);
    if (call < GIVE_BACK && block.length != layout.total)
        return refused(6, 0);
    if (!is_right_hand(ledger->hand, call))
        return refused(9, 0);
    switch (call) {
    case TURN: return turn(ledger, block.at);
    case COMMIT: return commit(ledger, number, block.at);
    case COMMIT_FULL: return commit(ledger, layout.capacity, block.at);
    case COMMIT_PACKETS: return commit_packets(ledger, list, block.at);
    case ACCEPTED: return accepted(ledger, block.at);
    case SUBMITTED_ERRNO: return submitted_errno(ledger, (uint32_t)number);
    case REAPED_ERRNO: return reaped_errno(ledger, (uint32_t)number);
    case REAPED_ADDRESS: return reaped_address(ledger, number, block.at);
    case GIVE_BACK: put_back(ledger); return answered(DONE, 0);
    case START: return start(ledger);
    case STOP: return stop(ledger, list);
    case FINISH: return count_out(ledger) == 0 ? answered(YES, 0) : refused(13, 0);
    default: return refused(0, 0);
    }
}
