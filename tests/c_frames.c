/* Whole frames in a packet (request 2026-04), by hand: R with frames of 6 bytes, of which 16 fit a packet of 100. */
#include "c_check.h"
#include "c_bytes.h"

/* R with FillSilence and silence byte 9. */
static const struct setup R6 = {4, 8, 100, 1, FILL_SILENCE, 9, 65536, 0, 6};
enum { R_STRIDE = 152, R_DATA = 640, R_DATA_STRIDE = 832, R_TOTAL = 3968, R_IMAGE = 220 };

/* R with frames of this size; opened, with slot 0 in hand. */
static struct stage held(uint64_t frame_bytes)
{
    struct setup setup = R6;
    setup.frame_bytes = frame_bytes;
    struct stage s = new_stage(&setup, 0);
    expect_opened(&s, &setup, 0);
    expect(&s, TURN, 0, 0, SLOT, 0);
    return s;
}

/* Slot i's buffer length, and its packet k's length. */
static uint64_t buffer_length(const struct stage *s, uint64_t slot)
{
    return number_at(s->block.bytes + R_STRIDE * slot + BUFFER_LENGTH, 4);
}

static uint64_t packet_length(const struct stage *s, uint64_t slot, unsigned k)
{
    return number_at(s->block.bytes + R_STRIDE * slot + DESCRIPTORS + DESCRIPTOR * k, 4);
}

/* A commit of so many bytes with frames of this size, and the lengths that it writes. */
static void committed(uint64_t frame_bytes, uint64_t bytes, const uint64_t lengths[8])
{
    in_part("commit of %llu with frames of %llu", (unsigned long long)bytes, (unsigned long long)frame_bytes);
    struct stage s = held(frame_bytes);
    expect(&s, COMMIT, bytes, 0, SUBMIT, 0);
    for (unsigned k = 0; k < 8; k++)
        same_number("length", packet_length(&s, 0, k), lengths[k]);
    same_number("buffer length", buffer_length(&s, 0), bytes);
    expect(&s, ACCEPTED, 0, 0, DONE, 0);
    same_number("bytes submitted", s.ledger.totals[BYTES_SUBMITTED], bytes);
    end_stage(&s);
}

/* The header says the capacity; commit takes it and no more, and commit_full is commit of it. */
static void capacity(uint64_t frame_bytes, uint64_t expected)
{
    in_part("capacity with frames of %llu", (unsigned long long)frame_bytes);
    struct stage s = held(frame_bytes);
    for (uint64_t slot = 0; slot < 4; slot++) {
        same_number("buffer length", buffer_length(&s, slot), expected);
        same_number("address of the payload", number_at(s.block.bytes + R_STRIDE * slot + BUFFER, 8),
                    65536 + R_DATA + R_DATA_STRIDE * slot);
    }
    expect(&s, COMMIT, expected + 1, 10, REFUSAL, 0);
    expect(&s, TURN, 0, 0, SLOT, 1);
    expect(&s, COMMIT, expected, 0, SUBMIT, 1);
    expect(&s, ACCEPTED, 0, 0, DONE, 0);
    expect(&s, TURN, 0, 0, SLOT, 2);
    expect(&s, COMMIT_FULL, 0, 0, SUBMIT, 2);
    for (unsigned k = 0; k < 8; k++)
        same_number("length of commit_full", packet_length(&s, 2, k), expected / 8);
    same_number("buffer length of commit_full", buffer_length(&s, 2), expected);
    end_stage(&s);
}

/* commit_packets of 8 lengths, seven of them 100: it goes by the packet's bytes, not by the frames. */
static void packets(uint64_t last, uint32_t refusal)
{
    in_part("commit_packets with frames of 6");
    struct stage s = held(6);
    end_lending(&s.list);
    s.list = lend(64, 0);
    for (unsigned k = 0; k < 8; k++)
        put_both(&s.list, 8 * k, 8, k == 7 ? last : 100);
    expect(&s, COMMIT_PACKETS, 0, refusal, refusal ? REFUSAL : SUBMIT, 0);
    same_number("buffer length", buffer_length(&s, 0), refusal ? 768 : 700 + last);
    end_stage(&s);
}

/* A payload: 768 bytes of silence; the 32 behind them, and those up to the next payload, as they were. */
static void silent_payload(const struct stage *s, uint64_t slot)
{
    const uint8_t *payload = s->block.bytes + R_DATA + R_DATA_STRIDE * slot;
    for (unsigned at = 0; at < R_DATA_STRIDE; at++)
        same_number("byte of a silent payload", payload[at], at < 768 ? 9 : 0x33);
    same_number("buffer length of silence", buffer_length(s, slot), 768);
    for (unsigned k = 0; k < 8; k++)
        same_number("length of silence", packet_length(s, slot, k), 96);
}

/* An underrun sends slots 2 and 3 with silence; ENOMEM then carries n * p * b all the same. */
static void silence(void)
{
    in_part("silence with frames of 6");
    struct stage s = held(6);
    expect(&s, COMMIT, 250, 0, SUBMIT, 0);
    expect(&s, ACCEPTED, 0, 0, DONE, 0);
    expect(&s, START, 0, 0, DONE, 0);
    expect(&s, TURN, 0, 0, SLOT, 1);
    expect(&s, COMMIT_FULL, 0, 0, SUBMIT, 1);
    expect(&s, ACCEPTED, 0, 0, DONE, 0);
    expect(&s, REAPED_ADDRESS, 65536, 0, COMPLETION, 0);
    expect(&s, REAPED_ADDRESS, 65536 + R_STRIDE, 0, COMPLETION, 0);
    for (size_t at = R_DATA; at < R_TOTAL; at++)
        put_both(&s.block, at, 1, 0x33);
    expect(&s, TURN, 0, 0, SUBMIT, 2);
    silent_payload(&s, 2);
    expect(&s, ACCEPTED, 0, 0, SUBMIT, 3);
    silent_payload(&s, 3);
    same_number("bytes submitted", s.ledger.totals[BYTES_SUBMITTED], 250 + 768 + 768);
    expect(&s, SUBMITTED_ERRNO, 12, 14, REFUSAL, 3200);
    end_stage(&s);
}

/* Opening R with frames of this size, a block and an image buffer of these lengths. */
static void opening(uint64_t frame_bytes, uint64_t block_length, uint64_t image_length, uint32_t refusal)
{
    struct setup setup = R6;
    struct stage s = {.image = lend(image_length, 0x5a), .block = lend(block_length, 0x33), .out = lend(64, 0)};
    in_part("opening with frames of %llu", (unsigned long long)frame_bytes);
    setup.frame_bytes = frame_bytes;
    expect_opened(&s, &setup, refusal);
    if (refusal == 0)
        same_number("frame size in the image", number_at(s.image.bytes + 88, 8), frame_bytes);
    end_stage(&s);
}

/* The image of R with another frame size, at every call: one that opening refuses gives 31. */
static void images(uint64_t frame_bytes, bool is_image)
{
    for (int call = TURN; call < CALLS; call++) {
        in_part("image with frames of %llu", (unsigned long long)frame_bytes);
        struct stage s = held(6);
        put_both(&s.image, 88, 8, frame_bytes);
        show_bytes(&s);
        same_number("by hand, 31", played(&s, (enum call)call, 65536).refusal != NOT_AN_IMAGE, is_image);
        end_stage(&s);
    }
}

void edges_of_frames(void)
{
    static const uint64_t bad[] = {0, 101, 256, ((uint64_t)1 << 32) + 6, UINT64_MAX};
    committed(6, 250, (uint64_t[8]){96, 96, 58});
    committed(6, 768, (uint64_t[8]){96, 96, 96, 96, 96, 96, 96, 96});
    committed(6, 97, (uint64_t[8]){96, 1});
    committed(6, 96, (uint64_t[8]){96});
    committed(6, 0, (uint64_t[8]){0});
    committed(100, 250, (uint64_t[8]){100, 100, 50});
    committed(51, 250, (uint64_t[8]){51, 51, 51, 51, 46});
    capacity(1, 800);
    capacity(6, 768);
    capacity(50, 800);
    capacity(51, 408);
    capacity(99, 792);
    capacity(100, 800);
    packets(100, 0);
    packets(99, 0);
    packets(101, 12);
    silence();
    opening(100, R_TOTAL, R_IMAGE, 0);
    opening(6, R_TOTAL, R_IMAGE - 1, NOT_AN_IMAGE);
    for (unsigned k = 0; k < sizeof bad / sizeof bad[0]; k++) {
        opening(bad[k], R_TOTAL, R_IMAGE, FRAME_SIZE);
        opening(bad[k], R_TOTAL - 1, R_IMAGE - 1, FRAME_SIZE);
        images(bad[k], false);
    }
    images(1, true);
    images(100, true);
}
