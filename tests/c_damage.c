/* Images that are cut, lengthened or changed, random bytes, and sound images that no list of calls makes. */
#include "c_random.h"
#include <stdlib.h>
#include <string.h>

/* R with FillSilence. */
static const struct setup R = {4, 8, 100, 1, FILL_SILENCE, 9, 65536, 0, 1};

/* How a stream is brought to each pose, a letter a step (`step`). */
static const char *const POSES[] = {
    "",     /* all free */
    "sst",  /* one held, two out */
    "stc",  /* one to be sent, one out */
    "srt",  /* a silent one to be sent, one left to follow */
    "srta", /* a silent one to be sent, none left; one out */
    "ssxs", /* two discarded, one out, none in hand */
};
enum { POSE_COUNT = sizeof POSES / sizeof POSES[0], SOME_RANDOM = 40000 };

static void step(struct stage *s, char letter)
{
    switch (letter) {
    case 's': step(s, 't'); step(s, 'c'); step(s, 'a'); break;
    case 't': played(s, TURN, 0); break;
    case 'c': played(s, COMMIT, 123); break;
    case 'a': played(s, ACCEPTED, 0); break;
    case 'r': played(s, REAPED_ADDRESS, R.base); break;
    default: played(s, STOP, 0); break;
    }
}

/* A stream opened, started and brought to a pose; every other one with a tag, frames of 6, endpoint and silence 0. */
static struct stage pose(int which)
{
    struct setup setup = R;
    if (which % 2 == 1) {
        setup.tag = 1;
        setup.endpoint = setup.silence_byte = 0;
        setup.frame_bytes = 6;
    }
    struct stage s = new_stage(&setup, 0);
    in_part("pose %d", which);
    expect_opened(&s, &setup, 0);
    played(&s, START, 0);
    for (const char *letter = POSES[which]; *letter != 0; letter++)
        step(&s, *letter);
    return s;
}

/* A copy of a stage, with an image buffer of another length: cut, or with other bytes behind the image. */
static struct stage copy_with(const struct stage *from, size_t length)
{
    struct stage s = new_stage(&from->ledger.setup, 0);
    size_t kept = length < from->image.length ? length : from->image.length;
    end_lending(&s.image);
    s.image = lend(length, 0xee);
    for (size_t at = 0; at < kept; at++)
        put_both(&s.image, at, 1, from->image.bytes[at]);
    copy_both(&s.block, from->block.bytes);
    copy_both(&s.list, from->list.bytes);
    show_bytes(&s);
    return s;
}

/* Every length below the image's gives 31; of a longer buffer the rest stays. */
static uint64_t other_lengths(const struct stage *from, int which)
{
    uint64_t cut = 0;
    for (size_t length = 0; length < from->image.length + 20; length++) {
        in_part("pose %d, image in %zu bytes", which, length);
        struct stage s = copy_with(from, length);
        same_number("the model's reading", s.is_image, length >= from->image.length);
        for (int call = TURN; call < CALLS; call++) {
            if (s.is_image)
                show_ledger(&s, &from->ledger);
            struct answer answer = played(&s, (enum call)call, from->ledger.setup.base);
            same_number("by hand, 31", answer.refusal == NOT_AN_IMAGE, length < from->image.length);
        }
        cut += length < from->image.length;
        end_stage(&s);
    }
    return cut;
}

/* Each byte of the image takes each other value. What the model reads as sound must be a whole image, and is played. */
static void byte_changes(const struct stage *from, int which, struct damage *damage)
{
    struct stage s = copy_with(from, from->image.length);
    uint8_t *again = malloc(s.image.length);
    for (size_t at = 0; at < s.image.length; at++) {
        in_part("pose %d, byte %zu of the image changed", which, at);
        for (unsigned other = 1; other < 256; other++) {
            copy_both(&s.image, from->image.bytes);
            copy_both(&s.block, from->block.bytes);
            put_both(&s.image, at, 1, from->image.bytes[at] ^ other);
            show_bytes(&s);
            if (s.is_image) {
                write_image(&s.ledger, again);
                same_number("the model's image of what it read", memcmp(again, s.image.bytes, s.image.length) == 0, 1);
            }
            damage->sound += s.is_image;
            played(&s, (enum call)(damage->changes++ % CALLS), from->ledger.setup.base);
        }
    }
    free(again);
    end_stage(&s);
}

/* Opening into a buffer of every length below the image's is refused, and nothing is written. */
static uint64_t short_openings(void)
{
    uint64_t cut = 0;
    in_part("opening into a buffer that is too short");
    for (; cut < image_size(R.slots); cut++) {
        struct stage s = new_stage(&R, 0);
        end_lending(&s.image);
        s.image = lend(cut, 0xee);
        expect_opened(&s, &R, NOT_AN_IMAGE);
        end_stage(&s);
    }
    return cut;
}

/* Random bytes: all of them random; small numbers; or an image with some bytes changed. */
static void random_images(struct random *r)
{
    for (int k = 0; k < SOME_RANDOM; k++) {
        in_part("random image %d", k);
        struct setup setup = draw_setup(r);
        struct stage s = new_stage(&setup, below(r, 3));
        struct ledger ledger = draw_ledger(r, &setup);
        show_ledger(&s, &ledger);
        uint64_t way = below(r, 3), changed = 1 + below(r, 4);
        for (size_t at = 0; way == 0 && at < s.image.length; at++)
            put_both(&s.image, at, 1, draw(r));
        for (size_t at = 0; way == 1 && at < s.image.length; at++)
            put_both(&s.image, at, 1, below(r, 4));
        for (uint64_t i = 0; way == 2 && i < changed; i++)
            put_both(&s.image, below(r, s.image.length), 1, one_in(r, 2) ? below(r, 4) : draw(r));
        draw_bytes(r, &s.list);
        show_bytes(&s);
        enum call call = (enum call)below(r, CALLS);
        played(&s, call, draw_number(r, call, &ledger));
        end_stage(&s);
    }
}

/* Sound images that no list of calls need make, with random bytes in block and list. */
static void sound_images(struct random *r)
{
    for (int k = 0; k < SOME_RANDOM; k++) {
        in_part("random sound image %d", k);
        struct setup setup = draw_setup(r);
        struct stage s = new_stage(&setup, below(r, 3));
        struct ledger ledger = draw_ledger(r, &setup);
        show_ledger(&s, &ledger);
        draw_bytes(r, &s.block);
        draw_bytes(r, &s.list);
        for (uint64_t i = 0; i < setup.slots; i++)
            if (!one_in(r, 4))
                put_both(&s.block, i * layout_of(&setup).header_stride + COOKIE, 8, i);
        show_bytes(&s);
        same_number("the model's reading of its own image", s.is_image, 1);
        enum call call = (enum call)below(r, CALLS);
        played(&s, call, draw_number(r, call, &ledger));
        end_stage(&s);
    }
}

struct damage damaged_images(void)
{
    struct damage damage = {0, 0, 0};
    struct random r = {7};
    damage.truncations = short_openings();
    for (int which = 0; which < POSE_COUNT; which++) {
        struct stage s = pose(which);
        damage.truncations += other_lengths(&s, which);
        byte_changes(&s, which, &damage);
        end_stage(&s);
    }
    random_images(&r);
    sound_images(&r);
    return damage;
}
