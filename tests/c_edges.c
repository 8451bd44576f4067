/* The paper's edges and traps, written out by hand: every answer here is a number of the paper. */
#include "c_check.h"
#include "c_bytes.h"

/* R of the paper: 4 slots of 8 packets of 100 bytes, at base 65,536, with frames of 1. */
static const struct setup R = {4, 8, 100, 1, CONTINUE, 0, 65536, 0, 1};

static uint64_t counter(const struct stage *stage, enum counter which)
{
    return number_at(stage->image.bytes + counters_at(stage->ledger.setup.slots) + 8 * which, 8);
}

static uint8_t *header(const struct stage *stage, uint64_t slot)
{
    return stage->block.bytes + slot * layout_of(&stage->ledger.setup).header_stride;
}

/* The kernel writes 4 bytes into a slot's header. */
static void kernel_writes(struct stage *stage, uint64_t slot, size_t field, int32_t value)
{
    put_both(&stage->block, slot * layout_of(&stage->ledger.setup).header_stride + field, 4, (uint32_t)value);
}

/* One buffer out: slot comes from the queue and is accepted. */
static void send_full(struct stage *stage, uint64_t slot)
{
    expect(stage, TURN, 0, 0, SLOT, slot);
    expect(stage, COMMIT_FULL, 0, 0, SUBMIT, slot);
    expect(stage, ACCEPTED, 0, 0, DONE, 0);
}

/* Two slots, FillSilence. */
void edges_of_two_slots(void)
{
    struct setup setup = {2, 1, 192, 1, FILL_SILENCE, 0x55, 64, 0, 1};
    struct stage s = new_stage(&setup, 0);
    in_part("edges of two slots");
    expect_opened(&s, &setup, 0);
    expect(&s, START, 0, 0, DONE, 0);
    expect(&s, TURN, 0, 0, SLOT, 0);
    expect(&s, COMMIT, 192, 0, SUBMIT, 0);
    expect(&s, ACCEPTED, 0, 0, DONE, 0);
    expect(&s, REAPED_ADDRESS, 64, 0, COMPLETION, 0);
    expect(&s, TURN, 0, 0, SUBMIT, 1);
    expect(&s, ACCEPTED, 0, 0, SUBMIT, 0);
    expect(&s, ACCEPTED, 0, 0, NOTHING, 0);
    same_number("submitted", counter(&s, SUBMITTED), 3);
    same_number("completed", counter(&s, COMPLETED), 1);
    same_number("underruns", counter(&s, UNDERRUNS), 1);
    same_number("silence in slot 0", s.block.bytes[192], 0x55);
    same_number("silence in slot 1", s.block.bytes[192 + 192 + 191], 0x55);
    end_stage(&s);
}

/* commit's lengths on R. */
static void commits_of_r(void)
{
    static const struct {
        uint64_t bytes;
        uint32_t refusal, lengths[8];
    } cases[] = {
        {800, 0, {100, 100, 100, 100, 100, 100, 100, 100}},
        {801, 10, {0}},
        {250, 0, {100, 100, 50, 0, 0, 0, 0, 0}},
        {0, 0, {0}},
    };
    for (unsigned k = 0; k < 4; k++) {
        struct stage s = new_stage(&R, 0);
        expect_opened(&s, &R, 0);
        expect(&s, TURN, 0, 0, SLOT, 0);
        expect(&s, COMMIT, cases[k].bytes, cases[k].refusal, cases[k].refusal ? REFUSAL : SUBMIT, 0);
        for (unsigned i = 0; i < 8; i++)
            same_number("length", number_at(header(&s, 0) + 56 + 12 * i, 4), cases[k].lengths[i]);
        same_number("buffer length", number_at(header(&s, 0) + 24, 4), cases[k].refusal ? 800 : cases[k].bytes);
        end_stage(&s);
    }
}

/* Two slots out, stop, what comes back after it, finish. */
static void stop_of_r(struct stage *s)
{
    expect(s, STOP, 0, 0, DONE, 2);
    same_number("listed first", number_at(s->list.bytes, 8), 0);
    same_number("listed second", number_at(s->list.bytes + 8, 8), 2);
    expect(s, FINISH, 0, 13, REFUSAL, 0);
    kernel_writes(s, 2, STATUS, -2);
    struct answer answer = played(s, REAPED_ADDRESS, 65536 + 2 * 152);
    same_number("status -2 in 64 bits", answer.numbers[1], 18446744073709551614u);
    same_number("short of a discarded one", answer.numbers[4], 800);
    same_number("discarded", answer.numbers[6], 1);
    expect(s, FINISH, 0, 13, REFUSAL, 0);
    kernel_writes(s, 0, STATUS, -19);
    expect(s, REAPED_ADDRESS, 65536, 0, COMPLETION, 18446744073709551597u);
    expect(s, FINISH, 0, 0, YES, 0);
}

/* R: lengths, addresses; then three out, one back, and its end. */
void edges_of_r(void)
{
    struct stage s = new_stage(&R, 0);
    in_part("edges of R");
    same_number("block of R", s.block.length, 3968);
    same_number("image of R", s.image.length, 220);
    commits_of_r();
    expect_opened(&s, &R, 0);
    same_number("address of slot 3's payload", number_at(header(&s, 3) + 16, 8), 65536 + 640 + 3 * 832);
    expect(&s, REAPED_ADDRESS, 65688, 18, REFUSAL, 0);
    expect(&s, REAPED_ADDRESS, 65689, 0, FOREIGN, 0);
    expect(&s, REAPED_ADDRESS, 66144, 0, FOREIGN, 0);
    put_both(&s.block, 66144 - 65536 + COOKIE, 8, 4);
    expect(&s, REAPED_ADDRESS, 66144, 0, FOREIGN, 0);
    expect(&s, REAPED_ADDRESS, 65535, 0, FOREIGN, 0);
    expect(&s, START, 0, 0, DONE, 0);
    for (uint64_t slot = 0; slot < 3; slot++)
        send_full(&s, slot);
    expect(&s, FINISH, 0, 13, REFUSAL, 0);
    kernel_writes(&s, 1, ACTUAL_LENGTH, 800);
    for (unsigned k = 0; k < 8; k++)
        kernel_writes(&s, 1, 56 + 12 * k + 4, 100);
    expect(&s, REAPED_ADDRESS, 65688, 0, COMPLETION, 0);
    same_number("transferred", counter(&s, TRANSFERRED), 800);
    stop_of_r(&s);
    same_number("submitted", counter(&s, SUBMITTED), 3);
    same_number("completed", counter(&s, COMPLETED), 1);
    same_number("URB errors", counter(&s, URB_ERRORS), 0);
    end_stage(&s);
}

/* A slot refused at commit goes to the queue's end, and out of the hand. */
static void refused_commit(struct stage *s)
{
    expect(s, TURN, 0, 0, SLOT, 0);
    expect(s, COMMIT, 801, 10, REFUSAL, 0);
    expect(s, GIVE_BACK, 0, 9, REFUSAL, 0);
    for (uint64_t slot = 1; slot < 4; slot++)
        send_full(s, slot);
    send_full(s, 0);
    expect(s, TURN, 0, 0, NOTHING, 0);
}

/* Everything comes back; slots in the order 3, 1, 0, 2. */
static void all_return(struct stage *s)
{
    static const uint64_t order[4] = {3, 1, 0, 2};
    for (unsigned k = 0; k < 4; k++)
        expect(s, REAPED_ADDRESS, 65536 + 152 * order[k], 0, COMPLETION, 0);
}

/* The traps of this ring. */
void traps(void)
{
    struct stage s = new_stage(&R, 0);
    in_part("traps");
    expect_opened(&s, &R, 0);
    refused_commit(&s);
    all_return(&s);
    /* Armed by buffers sent before it, the stream counts no underrun after its start; a second start clears nothing. */
    expect(&s, START, 0, 0, DONE, 0);
    expect(&s, TURN, 0, 0, SLOT, 3);
    same_number("underruns", counter(&s, UNDERRUNS), 0);
    /* Bytes submitted are those in the block; a negative length counts 0. */
    uint64_t before = counter(&s, BYTES_SUBMITTED);
    expect(&s, COMMIT, 250, 0, SUBMIT, 3);
    kernel_writes(&s, 3, BUFFER_LENGTH, 77);
    expect(&s, ACCEPTED, 0, 0, DONE, 0);
    same_number("bytes submitted", counter(&s, BYTES_SUBMITTED), before + 77);
    expect(&s, TURN, 0, 0, SLOT, 1);
    expect(&s, COMMIT, 250, 0, SUBMIT, 1);
    kernel_writes(&s, 1, BUFFER_LENGTH, -1);
    expect(&s, ACCEPTED, 0, 0, DONE, 0);
    same_number("bytes submitted", counter(&s, BYTES_SUBMITTED), before + 77);
    expect(&s, START, 0, 0, DONE, 0);
    expect(&s, REAPED_ADDRESS, 65536 + 3 * 152, 0, COMPLETION, 0);
    expect(&s, REAPED_ADDRESS, 65536 + 152, 0, COMPLETION, 0);
    expect(&s, TURN, 0, 0, SLOT, 0);
    same_number("underruns", counter(&s, UNDERRUNS), 1);
    end_stage(&s);
}
