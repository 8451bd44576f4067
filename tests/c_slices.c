/* Odd slices: out of every length, empty ones, ragged and overlong lists. */
#include "c_check.h"

static const struct setup R = {4, 8, 100, 1, CONTINUE, 0, 65536, 0, 1};

/* R with two slots InFlight, one Discarding, and one in the queue or in hand. */
static struct stage with_hand(enum hand hand)
{
    struct stage s = new_stage(&R, 0);
    struct ledger l = {.setup = R, .hand = hand, .started = true, .marks = {OUT, HOME, OUT, OUT_WITH_DISCARD}};
    expect_opened(&s, &R, 0);
    l.slot = hand == IDLE ? 0 : 1;
    l.queue[0] = hand == IDLE ? 1 : 0;
    l.queued = hand == IDLE;
    show_ledger(&s, &l);
    return s;
}

/* Each call answers and is refused into out slices of every length. */
static void outs(void)
{
    for (size_t length = 0; length <= 72; length++)
        for (int hand = IDLE; hand <= SILENT; hand++)
            for (int call = TURN; call < CALLS; call++) {
                in_part("out of %zu bytes", length);
                struct stage s = with_hand((enum hand)hand);
                end_lending(&s.out);
                s.out = length == 0 && call % 2 == 0 ? lend_nothing() : lend(length, 0);
                played(&s, (enum call)call, 65536);
                put_both(&s.image, 0, 1, 0xff);
                show_bytes(&s);
                played(&s, (enum call)call, 65536);
                opened(&s, &R);
                end_stage(&s);
            }
}

/* Nothing but empty slices. */
static void nothing(void)
{
    struct stage s = {.image = lend_nothing(), .block = lend_nothing(), .list = lend_nothing(), .out = lend_nothing()};
    struct setup setup = R;
    in_part("empty slices");
    for (int call = TURN; call < CALLS; call++)
        same_number("by hand, 31", played(&s, (enum call)call, 0).refusal, NOT_AN_IMAGE);
    expect_opened(&s, &setup, 6);
    setup.policy = 3;
    expect_opened(&s, &setup, NOT_AN_IMAGE);
}

/* stop with two slots to list: lists from none to four places, with every ragged end. */
static void ragged_stops(void)
{
    for (size_t length = 0; length <= 35; length++) {
        in_part("stop's list of %zu bytes", length);
        struct stage s = with_hand(IDLE);
        end_lending(&s.list);
        s.list = length == 0 ? lend_nothing() : lend(length, 0x77);
        expect(&s, STOP, 0, length < 16 ? 20 : 0, length < 16 ? REFUSAL : DONE, length < 16 ? 0 : 2);
        end_stage(&s);
    }
}

/* All 256 slots out; a list of 255 places with a ragged end, of 256, and of more. */
static void long_stops(void)
{
    static const size_t lengths[] = {255 * 8 + 7, 256 * 8, 256 * 8 + 3, 257 * 8, 1000 * 8 + 5};
    struct setup setup = {256, 1, 1, 1, CONTINUE, 0, 64, 0, 1};
    for (unsigned k = 0; k < 5; k++) {
        in_part("stop of 256 slots, a list of %zu bytes", lengths[k]);
        struct stage s = new_stage(&setup, 0);
        expect_opened(&s, &setup, 0);
        struct ledger l = s.ledger;
        l.queued = 0;
        for (int i = 0; i < 256; i++) {
            l.marks[i] = OUT;
            l.queue[i] = 0;
        }
        show_ledger(&s, &l);
        end_lending(&s.list);
        s.list = lend(lengths[k], 0x77);
        expect(&s, STOP, 0, k == 0 ? 20 : 0, k == 0 ? REFUSAL : DONE, k == 0 ? 0 : 256);
        end_stage(&s);
    }
}

/* commit_packets on a ring of so many packets with so many lengths and a ragged end. */
static void lengths(uint64_t packets, uint64_t count, size_t ragged)
{
    struct setup setup = {2, packets, 5, 1, CONTINUE, 0, 64, 0, 2};
    struct stage s = new_stage(&setup, 0);
    in_part("%llu lengths for %llu packets", (unsigned long long)count, (unsigned long long)packets);
    expect_opened(&s, &setup, 0);
    expect(&s, TURN, 0, 0, SLOT, 0);
    end_lending(&s.list);
    s.list = lend(8 * count + ragged, 0xff);
    for (uint64_t k = 0; k < count; k++)
        put_both(&s.list, 8 * k, 8, k % 6);
    expect(&s, COMMIT_PACKETS, 0, count == packets ? 0 : 11, count == packets ? SUBMIT : REFUSAL, 0);
    end_stage(&s);
}

void odd_slices(void)
{
    outs();
    nothing();
    ragged_stops();
    long_stops();
    for (size_t ragged = 0; ragged < 8; ragged++) {
        lengths(128, 128, ragged);
        lengths(128, 127, ragged);
        lengths(128, 129, ragged);
        lengths(1, 1, ragged);
        lengths(1, 0, ragged);
    }
    lengths(128, 130, 0);
    lengths(128, 256, 0);
    lengths(128, 257, 0);
    lengths(1, 129, 0);
    lengths(8, 5000, 3);
}
