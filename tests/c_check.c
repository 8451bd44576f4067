/* Makes a call on the library and on the model, and compares everything. */
#include "c_check.h"
#include "c_bytes.h"
#include <stdarg.h>
#include <stdio.h>
#include <stdlib.h>
#include <string.h>
#include <usbfs_iso.h>

static const char *const NAMES[CALLS + 1] = {
    "turn", "commit", "commit_full", "commit_packets", "submitted_accepted", "submitted_errno", "reaped_errno",
    "reaped_address", "give_back", "start", "stop", "finish", "open",
};

struct figures figures;

/* What is being done, for the message of a mismatch; the hand is that before the call. */
static char part[200];
static struct {
    const struct stage *stage;
    enum call call;
    enum hand hand;
    uint64_t number;
} doing;

void in_part(const char *format, ...)
{
    va_list arguments;
    va_start(arguments, format);
    vsnprintf(part, sizeof part, format, arguments);
    va_end(arguments);
    doing.stage = NULL;
}

static void describe(void)
{
    const struct stage *s = doing.stage;
    fprintf(stderr, "c_interface: %s: call %llu", part, (unsigned long long)figures.calls);
    if (s != NULL)
        fprintf(stderr, ", %s of %llu (image %zu, block %zu, list %zu, out %zu bytes; %s, hand %d)", NAMES[doing.call],
                (unsigned long long)doing.number, s->image.length, s->block.length, s->list.length, s->out.length,
                s->is_image ? "an image" : "no image", (int)doing.hand);
    fprintf(stderr, ": ");
}

void mismatch(const char *format, ...)
{
    va_list arguments;
    fflush(stdout);
    describe();
    va_start(arguments, format);
    vfprintf(stderr, format, arguments);
    va_end(arguments);
    fprintf(stderr, "\n");
    exit(1);
}

void same_number(const char *what, uint64_t got, uint64_t expected)
{
    if (got != expected)
        mismatch("%s: expected %llu, got %llu", what, (unsigned long long)expected, (unsigned long long)got);
}

void same_bytes(const char *what, const struct lent *slice)
{
    if (slice->length == 0 || memcmp(slice->bytes, slice->twin, slice->length) == 0)
        return;
    size_t at = 0;
    while (slice->bytes[at] == slice->twin[at])
        at++;
    mismatch("%s, byte %zu of %zu: expected %u, got %u", what, at, slice->length, slice->twin[at], slice->bytes[at]);
}

struct stage new_stage(const struct setup *setup, size_t more)
{
    struct stage stage;
    memset(&stage, 0, sizeof stage);
    stage.image = lend(image_size(setup->slots) + more, 0x5a);
    stage.block = lend(layout_of(setup).total, 0x33);
    stage.list = lend(8 * setup->slots, 0x77);
    stage.out = lend(64, 0xa5);
    return stage;
}

void end_stage(struct stage *stage)
{
    end_lending(&stage->image);
    end_lending(&stage->block);
    end_lending(&stage->list);
    end_lending(&stage->out);
}

void show_ledger(struct stage *stage, const struct ledger *ledger)
{
    stage->ledger = *ledger;
    stage->is_image = true;
    write_image(ledger, stage->image.twin);
    write_image(ledger, stage->image.bytes);
}

void show_bytes(struct stage *stage)
{
    stage->is_image = read_image(stage->image.twin, stage->image.length, &stage->ledger);
}

/* A call begins. */
static void begin(const struct stage *stage, enum call call, uint64_t number)
{
    doing.stage = stage;
    doing.call = call;
    doing.hand = stage->ledger.hand;
    doing.number = number;
    figures.calls++;
}

static void compare(struct stage *s, uint32_t returned, const struct answer *expected)
{
    figures.refusals[expected->refusal]++;
    figures.kinds[expected->numbers[0]]++;
    same_number("returned", returned, expected->refusal);
    for (size_t k = 0; k < s->out.length / 8 && k < 8; k++) {
        uint64_t got = number_at(s->out.bytes + 8 * k, 8);
        if (got != expected->numbers[k])
            mismatch("number %zu of out: expected %lld, got %lld", k, (long long)expected->numbers[k], (long long)got);
    }
    same_bytes("out", &s->out);
    same_bytes("image", &s->image);
    same_bytes("block", &s->block);
    same_bytes("list", &s->list);
}

/* The stage's slices, as the library takes them. */
#define IMAGE s->image.bytes, s->image.length
#define BLOCK s->block.bytes, s->block.length
#define LIST s->list.bytes, s->list.length
#define ANSWER s->out.bytes, s->out.length

struct answer opened(struct stage *s, const struct setup *v)
{
    struct bytes block = {s->block.twin, s->block.length};
    struct ledger ledger;
    struct answer expected = model_open(v, block, s->image.length, &ledger);
    if (expected.refusal == 0) {
        write_image(&ledger, s->image.twin);
        s->ledger = ledger;
        s->is_image = true;
    }
    expect_out(&s->out, expected.numbers, 8);
    begin(s, CALLS, v->slots);
    uint32_t returned = usbfs_iso_open(v->slots, v->packets_per_urb, v->packet_bytes, v->endpoint, v->policy,
                                       v->silence_byte, v->base, v->tag, v->frame_bytes, BLOCK, IMAGE, ANSWER);
    compare(s, returned, &expected);
    return expected;
}

static uint32_t call_library(struct stage *s, enum call call, uint64_t number)
{
    switch (call) {
    case TURN: return usbfs_iso_turn(IMAGE, BLOCK, ANSWER);
    case COMMIT: return usbfs_iso_commit(IMAGE, number, BLOCK, ANSWER);
    case COMMIT_FULL: return usbfs_iso_commit_full(IMAGE, BLOCK, ANSWER);
    case COMMIT_PACKETS: return usbfs_iso_commit_packets(IMAGE, LIST, BLOCK, ANSWER);
    case ACCEPTED: return usbfs_iso_submitted_accepted(IMAGE, BLOCK, ANSWER);
    case SUBMITTED_ERRNO: return usbfs_iso_submitted_errno(IMAGE, (uint32_t)number, BLOCK, ANSWER);
    case REAPED_ERRNO: return usbfs_iso_reaped_errno(IMAGE, (uint32_t)number, BLOCK, ANSWER);
    case REAPED_ADDRESS: return usbfs_iso_reaped_address(IMAGE, number, BLOCK, ANSWER);
    case GIVE_BACK: return usbfs_iso_give_back(IMAGE, ANSWER);
    case START: return usbfs_iso_start(IMAGE, ANSWER);
    case STOP: return usbfs_iso_stop(IMAGE, LIST, ANSWER);
    default: return usbfs_iso_finish(IMAGE, ANSWER);
    }
}

struct answer played(struct stage *s, enum call call, uint64_t number)
{
    struct bytes list = {s->list.twin, s->list.length}, block = {s->block.twin, s->block.length};
    struct answer expected = refused(NOT_AN_IMAGE, 0);
    begin(s, call, number);
    if (s->is_image) {
        expected = model_call(&s->ledger, call, number, list, block);
        write_image(&s->ledger, s->image.twin);
    }
    expect_out(&s->out, expected.numbers, 8);
    compare(s, call_library(s, call, number), &expected);
    return expected;
}

void expect_opened(struct stage *stage, const struct setup *setup, uint32_t refusal)
{
    same_number("by hand, refusal", opened(stage, setup).refusal, refusal);
}

void expect(struct stage *stage, enum call call, uint64_t number, uint32_t refusal, enum kind kind, uint64_t value)
{
    struct answer answer = played(stage, call, number);
    same_number("by hand, refusal", answer.refusal, refusal);
    same_number("by hand, kind", answer.numbers[0], kind);
    same_number("by hand, value", answer.numbers[1], value);
}
