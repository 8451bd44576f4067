/*
 * A seeded run of random calls, each compared with the model. Most fit the hand, so that deep states are reached; some
 * are nonsense. The kernel's part is played by random writes into the block.
 */
#include "c_random.h"

/* A call that fits the hand. haste: of a hundred, how often an idle host takes a slot and does not reap. */
static enum call fitting_call(struct random *r, const struct ledger *ledger, uint64_t haste)
{
    static const enum call held[] = {COMMIT,         COMMIT,         COMMIT,   COMMIT_FULL, COMMIT_FULL,
                                     COMMIT_PACKETS, COMMIT_PACKETS, GIVE_BACK};
    static const enum call seldom[] = {START, START, STOP, FINISH};
    if (ledger->hand == HELD)
        return held[below(r, 8)];
    if (ledger->hand != IDLE)
        return one_in(r, 10) ? SUBMITTED_ERRNO : ACCEPTED;
    if (one_in(r, 16))
        return seldom[below(r, 4)];
    if (below(r, 100) < haste)
        return TURN;
    return one_in(r, 10) ? REAPED_ERRNO : REAPED_ADDRESS;
}

/* The kernel fills in the URB at this address, if it is one; and writes anywhere, now and then. */
static void kernel_writes(struct random *r, struct stage *s, enum call call, uint64_t number)
{
    const struct setup *setup = &s->ledger.setup;
    uint64_t stride = layout_of(setup).header_stride;
    if (s->block.length != layout_of(setup).total)
        return;
    if (call == REAPED_ADDRESS)
        draw_completion(r, &s->ledger, (number - setup->base) / stride % setup->slots, &s->block);
    if (call == ACCEPTED && one_in(r, 10))
        put_both(&s->block, s->ledger.slot * stride + BUFFER_LENGTH, 4, draw(r));
    if (one_in(r, 50))
        put_both(&s->block, below(r, s->block.length), 1, draw(r));
}

/* A list for stop: mostly long enough. */
static struct lent stop_list(struct random *r, const struct ledger *ledger)
{
    size_t enough = 8 * ledger->setup.slots + below(r, 9), any = below(r, 8 * count_out(ledger) + 1);
    struct lent list = lend(one_in(r, 4) ? any : enough, 0);
    draw_bytes(r, &list);
    return list;
}

static void one_call(struct random *r, struct stage *s, uint64_t haste)
{
    enum call call = one_in(r, 20) ? (enum call)below(r, CALLS) : fitting_call(r, &s->ledger, haste);
    uint64_t number = draw_number(r, call, &s->ledger);
    struct lent list = s->list;
    kernel_writes(r, s, call, number);
    if (call == COMMIT_PACKETS)
        s->list = draw_lengths(r, &s->ledger.setup);
    if (call == STOP)
        s->list = stop_list(r, &s->ledger);
    played(s, call, number);
    if (call == COMMIT_PACKETS || call == STOP) {
        end_lending(&s->list);
        s->list = list;
    }
}

/* A call with a byte of the image changed. Where that is a sound record's image, the run goes on with it. */
static void with_damage(struct random *r, struct stage *s, uint64_t haste)
{
    struct ledger before = s->ledger;
    size_t at = below(r, image_size(before.setup.slots));
    put_both(&s->image, at, 1, one_in(r, 2) ? draw(r) : s->image.bytes[at] ^ (1u << below(r, 8)));
    show_bytes(s);
    bool is_other_ring = s->is_image && layout_of(&s->ledger.setup).total != s->block.length;
    if (!s->is_image)
        s->ledger = before;
    one_call(r, s, haste);
    if (!s->is_image || is_other_ring)
        show_ledger(s, &before);
}

/* A call with a block of another length, or with an out slice of another length. */
static void with_other_slice(struct random *r, struct stage *s, uint64_t haste)
{
    bool is_block = one_in(r, 2);
    struct lent *slice = is_block ? &s->block : &s->out, whole = *slice;
    size_t length = is_block ? whole.length - 1 + 2 * below(r, 2) : below(r, 73);
    *slice = one_in(r, 4) ? lend_nothing() : lend(length, 0x99);
    one_call(r, s, haste);
    end_lending(slice);
    *slice = whole;
}

/* Openings that are refused, or not, into the same slices. */
static void try_openings(struct random *r, struct stage *s, const struct setup *setup)
{
    for (uint64_t k = below(r, 3); k > 0; k--) {
        struct setup tried = *setup;
        uint64_t any = one_in(r, 2) ? below(r, 3) : one_in(r, 2) ? below(r, 300) : draw(r);
        switch (below(r, 7)) {
        case 0: tried.slots = any; break;
        case 1: tried.packets_per_urb = any; break;
        case 2: tried.packet_bytes = any; break;
        case 3: tried.policy = below(r, 5); break;
        case 4: tried.tag = below(r, 3); break;
        case 5: tried.frame_bytes = one_in(r, 2) ? tried.packet_bytes + below(r, 2) : any; break;
        default: tried.base = any; break;
        }
        opened(s, &tried);
    }
}

/* One stream, from its opening on. */
static void one_stream(struct random *r, uint64_t calls)
{
    struct setup setup = draw_setup(r);
    struct stage s = new_stage(&setup, below(r, 3) * 7);
    uint64_t haste = 30 + below(r, 40);
    try_openings(r, &s, &setup);
    expect_opened(&s, &setup, 0);
    for (int k = 0; k < COUNTERS; k++)
        if (one_in(r, 4))
            s.ledger.totals[k] = draw_total(r);
    show_ledger(&s, &s.ledger);
    for (uint64_t k = 0; k < calls; k++) {
        uint64_t way = below(r, 60);
        if (way == 0)
            with_damage(r, &s, haste);
        else if (way == 1)
            with_other_slice(r, &s, haste);
        else
            one_call(r, &s, haste);
    }
    end_stage(&s);
}

/* Every refusal and every kind that opening and the calls give has come up since. */
static void all_came_up(const struct figures *before)
{
    static const uint32_t refusals[] = {1,  2,  3,  5,  6,  7,  9,  10, 11,           12,
                                        13, 14, 15, 16, 17, 18, 19, 20, NOT_AN_IMAGE, FRAME_SIZE};
    for (size_t k = 0; k < sizeof refusals / sizeof refusals[0]; k++)
        if (figures.refusals[refusals[k]] == before->refusals[refusals[k]])
            mismatch("refusal %u never came up", (unsigned)refusals[k]);
    for (int kind = REFUSAL; kind <= YES; kind++)
        if (figures.kinds[kind] == before->kinds[kind])
            mismatch("kind %d never came up", kind);
}

void random_run(uint64_t seed, uint64_t calls)
{
    struct random r = {seed};
    struct figures before = figures;
    for (uint64_t k = 0; figures.calls - before.calls < calls; k++) {
        uint64_t left = calls - (figures.calls - before.calls), some = 1 + below(&r, 1000);
        in_part("random run of seed %llu, stream %llu", (unsigned long long)seed, (unsigned long long)k);
        one_stream(&r, some < left ? some : left);
    }
    in_part("random run of seed %llu", (unsigned long long)seed);
    if (calls >= 100000)
        all_came_up(&before);
}
