/* Every refusal that opening and the calls give to C, by hand, with the order in which they come. */
#include "c_check.h"

static const struct setup R = {4, 8, 100, 1, CONTINUE, 0, 65536, 0, 1};
static const uint64_t R_TOTAL = 3968, R_IMAGE = 220;

/* Opening with these values, a block and an image buffer of these lengths. */
static void opening(struct setup setup, uint64_t block_length, uint64_t image_length, uint32_t refusal)
{
    struct stage s = {.image = lend(image_length, 0x5a), .block = lend(block_length, 0x33), .out = lend(64, 0)};
    expect_opened(&s, &setup, refusal);
    end_stage(&s);
}

/* R with one value set, and everything that is tested later wrong too. */
#define R_WITH(field, value, block, image, refusal) \
    do {                                            \
        struct setup changed = R;                   \
        changed.field = value;                      \
        opening(changed, block, image, refusal);    \
    } while (0)

static void opening_in_order(void)
{
    in_part("opening's refusals");
    opening((struct setup){0, 0, 0, 1, 3, 0, 1, 0, 0}, 1, 0, 31);
    opening((struct setup){0, 0, 0, 1, 0, 0, 1, 2, 0}, 1, 0, 31);
    opening((struct setup){0, 0, 0, 1, UINT64_MAX, 0, 1, UINT64_MAX, 0}, 1, 0, 31);
    opening((struct setup){0, 0, 0, 1, 2, 0, 1, 1, 0}, 1, 0, 1);
    opening((struct setup){1, 0, 0, 1, 0, 0, 1, 0, 0}, 1, 0, 1);
    opening((struct setup){2, 0, 49153, 1, 0, 0, 1, 0, 0}, 1, 0, 2);
    opening((struct setup){257, 129, 0, 1, 0, 0, 1, 0, 0}, 1, 0, 2);
    opening((struct setup){257, 129, 49153, 1, 0, 0, 1, 0, 0}, 1, 0, 3);
    opening((struct setup){257, 128, 1, 1, 0, 0, 1, 0, 0}, 1, 0, 5);
    opening((struct setup){2, 128, 49153, 1, 0, 0, 1, 0, 49154}, 1, 0, 5);
    opening((struct setup){UINT64_MAX, 128, UINT64_MAX, 1, 0, 0, 1, 0, 0}, 1, 0, 5);
    opening((struct setup){4, 8, 100, 1, 0, 0, 1, 0, 0}, 1, 0, 33);
    opening((struct setup){4, 8, 100, 1, 0, 0, 1, 0, 101}, 1, 0, 33);
    opening((struct setup){256, 128, 49152, 1, 0, 0, 1, 0, 49153}, 1, 0, 33);
    R_WITH(base, 1, R_TOTAL - 1, 0, 6);
    R_WITH(base, 1, R_TOTAL + 1, 0, 6);
    R_WITH(base, 1, 0, 0, 6);
    R_WITH(base, 65537, R_TOTAL, 0, 7);
    R_WITH(base, 65568, R_TOTAL, 0, 7);
    R_WITH(base, 0 - R_TOTAL + 64, R_TOTAL, 0, 7);
    R_WITH(policy, ERROR, R_TOTAL, R_IMAGE - 1, 31);
    R_WITH(policy, ERROR, R_TOTAL, 0, 31);
    R_WITH(policy, ERROR, R_TOTAL, R_IMAGE, 0);
    R_WITH(endpoint, 255, R_TOTAL, R_IMAGE + 1, 0);
    R_WITH(base, 0, R_TOTAL, R_IMAGE, 0);
    R_WITH(base, 0 - R_TOTAL, R_TOTAL, R_IMAGE, 0);
}

/* With a tag only the low 56 bits of the base count against the limit; the headers keep it whole. */
static void tagged_openings(void)
{
    uint64_t limit = (uint64_t)1 << 56;
    struct setup tagged = {2, 1, 192, 1, CONTINUE, 0, 0xab * limit + limit - 576, 1, 1};
    struct stage s = new_stage(&tagged, 0);
    in_part("a tagged base");
    opening(tagged, 576, 210, 0);
    expect_opened(&s, &tagged, 0);
    expect(&s, TURN, 0, 0, SLOT, 0);
    expect(&s, COMMIT_FULL, 0, 0, SUBMIT, 0);
    expect(&s, ACCEPTED, 0, 0, DONE, 0);
    expect(&s, REAPED_ADDRESS, limit - 576 + 72, 18, REFUSAL, 0);
    expect(&s, REAPED_ADDRESS, 0xcd * limit + limit - 576, 0, COMPLETION, 0);
    end_stage(&s);
    tagged.base += 64;
    opening(tagged, 576, 210, 7);
    tagged.tag = 0;
    opening(tagged, 576, 210, 0);
}

/* R, opened and brought to this hand, FillSilence; slot 0 is out and back where the hand is Silent. */
static struct stage with_hand(enum hand hand)
{
    struct setup setup = R;
    setup.policy = FILL_SILENCE;
    struct stage s = new_stage(&setup, 0);
    expect_opened(&s, &setup, 0);
    expect(&s, START, 0, 0, DONE, 0);
    if (hand != IDLE)
        expect(&s, TURN, 0, 0, SLOT, 0);
    if (hand == SENDING || hand == SILENT)
        expect(&s, COMMIT, 300, 0, SUBMIT, 0);
    if (hand == SILENT) {
        expect(&s, ACCEPTED, 0, 0, DONE, 0);
        expect(&s, REAPED_ADDRESS, 65536, 0, COMPLETION, 0);
        expect(&s, TURN, 0, 0, SUBMIT, 1);
    }
    return s;
}

/* 6 in every hand, then 9 in each hand but those named here. */
static void six_then_nine(void)
{
    static const char *const right[CALLS] = {"I", "H", "H", "H", "SX", "SX", "I", "I", "H", "I", "I", "I"};
    static const size_t lengths[] = {0, 1, 3967, 3969};
    in_part("6 before 9");
    for (int hand = IDLE; hand <= SILENT; hand++)
        for (int call = TURN; call < CALLS; call++) {
            bool is_right = false;
            for (const char *h = right[call]; *h != 0; h++)
                is_right = is_right || *h == "IHSX"[hand];
            struct stage s = with_hand((enum hand)hand);
            for (int k = 0; call < GIVE_BACK && k < 4; k++) {
                struct lent block = s.block;
                s.block = lengths[k] == 0 ? lend_nothing() : lend(lengths[k], 0x11);
                expect(&s, (enum call)call, 5, 6, REFUSAL, 0);
                end_lending(&s.block);
                s.block = block;
            }
            if (!is_right)
                expect(&s, (enum call)call, 5, 9, REFUSAL, 0);
            else if (played(&s, (enum call)call, 5).refusal == 9)
                mismatch("by hand: 9 was not expected");
            end_stage(&s);
        }
}

/* Held: a list of `count` lengths of `length` bytes, the last of them `last`, refused so. */
static void packets(uint64_t count, uint64_t length, uint64_t last, uint32_t refusal)
{
    struct stage s = with_hand(HELD);
    end_lending(&s.list);
    s.list = lend(8 * count + 3, 0);
    for (uint64_t k = 0; k < count; k++)
        put_both(&s.list, 8 * k, 8, k + 1 == count ? last : length);
    expect(&s, COMMIT_PACKETS, 0, refusal, refusal ? REFUSAL : SUBMIT, 0);
    expect(&s, GIVE_BACK, 0, 9, REFUSAL, 0);
    end_stage(&s);
}

static void commit_refusals(void)
{
    struct stage s = with_hand(HELD);
    in_part("refusals of the commits");
    expect(&s, COMMIT, UINT64_MAX, 10, REFUSAL, 0);
    end_stage(&s);
    packets(8, 100, 100, 0);
    packets(8, 100, 0, 0);
    packets(7, 100, 101, 11);
    packets(9, 100, 101, 11);
    packets(0, 0, 0, 11);
    packets(8, 100, 101, 12);
    packets(8, 0, UINT64_MAX, 12);
    packets(8, 0, (uint64_t)1 << 32, 12);
}

/* The kernel's errnos: of a submission, and of a reaping. */
static void errno_refusals(void)
{
    static const struct {
        uint32_t error, submission, submission_value, reaping, reaping_value;
    } cases[] = {
        {19, 13, 0, 13, 0}, {108, 13, 0, 13, 0}, {12, 14, 3200, 17, 12}, {13, 15, 0, 15, 0}, {1, 15, 0, 15, 0},
        {25, 16, 0, 16, 0}, {5, 17, 5, 17, 5}, {0, 17, 0, 17, 0}, {11, 17, 11, 0, 0},
        {2147483648u, 17, 2147483648u, 17, 2147483648u}, {4294967295u, 17, 4294967295u, 17, 4294967295u},
    };
    in_part("errnos");
    for (unsigned k = 0; k < sizeof cases / sizeof cases[0]; k++) {
        for (int hand = SENDING; hand <= SILENT; hand++) {
            struct stage s = with_hand((enum hand)hand);
            expect(&s, SUBMITTED_ERRNO, cases[k].error, cases[k].submission, REFUSAL, cases[k].submission_value);
            enum kind kind = cases[k].reaping ? REFUSAL : NOTHING;
            expect(&s, REAPED_ERRNO, cases[k].error, cases[k].reaping, kind, cases[k].reaping_value);
            end_stage(&s);
        }
    }
}

/* A URB that came back with the device gone has been returned and counted. */
static void gone(int32_t status)
{
    struct stage s = with_hand(SENDING);
    in_part("a status of %d", (int)status);
    expect(&s, ACCEPTED, 0, 0, DONE, 0);
    put_both(&s.block, STATUS, 4, (uint32_t)status);
    expect(&s, REAPED_ADDRESS, 65536, 13, REFUSAL, 0);
    same_number("completed", s.ledger.totals[COMPLETED], 1);
    same_number("URB errors", s.ledger.totals[URB_ERRORS], 1);
    expect(&s, REAPED_ADDRESS, 65536, 18, REFUSAL, 0);
    put_both(&s.block, COOKIE, 8, (uint64_t)1 << 32);
    expect(&s, REAPED_ADDRESS, 65536, 0, FOREIGN, 0);
    expect(&s, FINISH, 0, 0, YES, 0);
    end_stage(&s);
}

/* 19 counts, takes nothing and disarms; 20 leaves the flags. */
static void underrun_and_list(void)
{
    struct setup setup = R;
    setup.policy = ERROR;
    struct stage s = new_stage(&setup, 0);
    in_part("19 and 20");
    expect_opened(&s, &setup, 0);
    expect(&s, START, 0, 0, DONE, 0);
    for (uint64_t count = 1; count < 3; count++) {
        for (uint64_t k = 0; k < 2; k++) {
            expect(&s, TURN, 0, 0, SLOT, k == 0 ? 2 * count - 2 : (2 * count - 1) % 4);
            expect(&s, COMMIT_FULL, 0, 0, SUBMIT, s.ledger.slot);
            expect(&s, ACCEPTED, 0, 0, DONE, 0);
        }
        struct lent list = s.list;
        s.list = lend(15, 0x77);
        expect(&s, STOP, 0, 20, REFUSAL, 0);
        end_lending(&s.list);
        s.list = lend_nothing();
        expect(&s, STOP, 0, 20, REFUSAL, 0);
        s.list = list;
        expect(&s, REAPED_ADDRESS, 65536 + 152 * (2 * count - 2), 0, COMPLETION, 0);
        expect(&s, REAPED_ADDRESS, 65536 + 152 * (2 * count - 1), 0, COMPLETION, 0);
        expect(&s, TURN, 0, 19, REFUSAL, count);
    }
    struct lent list = s.list;
    s.list = lend_nothing();
    expect(&s, STOP, 0, 0, DONE, 0);
    s.list = list;
    end_stage(&s);
}

void every_refusal(void)
{
    opening_in_order();
    tagged_openings();
    six_then_nine();
    commit_refusals();
    errno_refusals();
    gone(-19);
    gone(-108);
    underrun_and_list();
}
