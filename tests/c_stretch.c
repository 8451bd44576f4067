/*
 * The next stretch of programme or message: every step on short buffers, numbers at the ends of their ranges, out slices
 * of every length, and lists of steps whose stretches must join to what has been passed.
 */
#include "c_random.h"
#include <stdlib.h>
#include <string.h>
#include <usbfs_iso.h>

enum { PROGRAMME, MESSAGE, NEITHER, NUMBERS = 5 };

/* The paper's step; the lengths and positions of programme and message in this order. */
static uint32_t stepped(const uint64_t lengths[2], bool flag, uint64_t capacity, const uint64_t at[2],
                        uint64_t numbers[NUMBERS])
{
    if (at[PROGRAMME] > lengths[PROGRAMME] || at[MESSAGE] > lengths[MESSAGE]) {
        memcpy(numbers, (uint64_t[]){NEITHER, 0, 0, at[PROGRAMME], at[MESSAGE]}, NUMBERS * sizeof numbers[0]);
        return POSITION_BEYOND;
    }
    unsigned from = flag && at[MESSAGE] < lengths[MESSAGE] ? MESSAGE : PROGRAMME;
    uint64_t left = lengths[from] - at[from], length = capacity < left ? capacity : left;
    memcpy(numbers, (uint64_t[]){from, at[from], length, at[PROGRAMME], at[MESSAGE]}, NUMBERS * sizeof numbers[0]);
    numbers[3 + from] += length;
    return 0;
}

/* Makes a step on the library and on the paper's; compares everything. */
static uint32_t stretch(struct lent buffers[2], uint32_t flag, uint64_t capacity, const uint64_t at[2],
                        struct lent *out, uint64_t numbers[NUMBERS])
{
    const uint64_t lengths[2] = {buffers[PROGRAMME].length, buffers[MESSAGE].length};
    uint32_t refusal = stepped(lengths, flag != 0, capacity, at, numbers);
    expect_out(out, numbers, NUMBERS);
    uint32_t returned = usbfs_iso_stretch(buffers[PROGRAMME].bytes, lengths[PROGRAMME], buffers[MESSAGE].bytes,
                                          lengths[MESSAGE], flag, capacity, at[PROGRAMME], at[MESSAGE], out->bytes,
                                          out->length);
    figures.calls++;
    same_number("returned", returned, refusal);
    same_bytes("out", out);
    same_bytes("programme", &buffers[PROGRAMME]);
    same_bytes("message", &buffers[MESSAGE]);
    return refusal;
}

static struct lent buffer_of(size_t length)
{
    return length == 0 ? lend_nothing() : lend(length, 0x42);
}

/* Buffers of 10 and 4 bytes; each row: flag, capacity, positions, refusal, numbers. */
static void by_hand(void)
{
    static const uint64_t rows[][10] = {
        {0, 6, 0, 0, 0, PROGRAMME, 0, 6, 6, 0},    {1, 6, 0, 0, 0, MESSAGE, 0, 4, 0, 4},
        {1, 3, 5, 1, 0, MESSAGE, 1, 3, 5, 4},      {1, 6, 5, 4, 0, PROGRAMME, 5, 5, 10, 4},
        {0, 6, 10, 2, 0, PROGRAMME, 10, 0, 10, 2}, {1, 6, 10, 4, 0, PROGRAMME, 10, 0, 10, 4},
        {1, 0, 3, 2, 0, MESSAGE, 2, 0, 3, 2},      {0, 0, 3, 2, 0, PROGRAMME, 3, 0, 3, 2},
        {0, 6, 11, 0, 34, NEITHER, 0, 0, 11, 0},   {1, 6, 11, 0, 34, NEITHER, 0, 0, 11, 0},
        {0, 6, 0, 5, 34, NEITHER, 0, 0, 0, 5},     {1, 6, 0, 5, 34, NEITHER, 0, 0, 0, 5},
    };
    struct lent buffers[2] = {lend(10, 1), lend(4, 2)}, out = lend(40, 0);
    in_part("stretches by hand");
    for (unsigned k = 0; k < sizeof rows / sizeof rows[0]; k++) {
        uint64_t numbers[NUMBERS];
        uint32_t refusal = stretch(buffers, (uint32_t)rows[k][0], rows[k][1], rows[k] + 2, &out, numbers);
        same_number("by hand, refusal", refusal, rows[k][4]);
        for (unsigned place = 0; place < NUMBERS; place++)
            same_number("by hand, number", numbers[place], rows[k][5 + place]);
    }
    for (unsigned k = 0; k < 2; k++)
        end_lending(&buffers[k]);
    end_lending(&out);
}

/* Every step on buffers of up to 4 bytes, and with numbers at the ends of their ranges. */
static void every_step(void)
{
    static const uint64_t places[] = {0, 1, 2, 3, 4, 5, 6, (uint64_t)1 << 32, ((uint64_t)1 << 32) + 1,
                                      (uint64_t)1 << 63, UINT64_MAX - 1, UINT64_MAX};
    static const uint32_t flags[] = {0, 1, 2, (uint32_t)1 << 31, UINT32_MAX};
    enum { PLACES = sizeof places / sizeof places[0], FLAGS = sizeof flags / sizeof flags[0] };
    struct lent out = lend(40, 0);
    uint64_t numbers[NUMBERS];
    for (unsigned lengths = 0; lengths < 25; lengths++) {
        struct lent buffers[2] = {buffer_of(lengths / 5), buffer_of(lengths % 5)};
        in_part("stretches of buffers of %u and %u bytes", lengths / 5, lengths % 5);
        for (unsigned k = 0; k < PLACES * PLACES * PLACES * FLAGS; k++) {
            const uint64_t at[2] = {places[k % PLACES], places[k / PLACES % PLACES]};
            stretch(buffers, flags[k / (PLACES * PLACES * PLACES)], places[k / PLACES / PLACES % PLACES], at, &out,
                    numbers);
        }
        end_lending(&buffers[PROGRAMME]);
        end_lending(&buffers[MESSAGE]);
    }
    end_lending(&out);
}

static void outs(void)
{
    struct lent buffers[2] = {lend(7, 1), lend(3, 2)};
    uint64_t numbers[NUMBERS];
    for (size_t length = 0; length <= 48; length++) {
        struct lent out = buffer_of(length);
        in_part("stretches to an out of %zu bytes", length);
        stretch(buffers, 1, 2, (uint64_t[]){6, 1}, &out, numbers);
        stretch(buffers, 1, 2, (uint64_t[]){8, 1}, &out, numbers);
        end_lending(&out);
    }
    end_lending(&buffers[PROGRAMME]);
    end_lending(&buffers[MESSAGE]);
}

/* Steps from any positions, each from those that the last one gave: the stretches are joined, and compared. */
static void list_of_steps(struct random *r)
{
    struct lent buffers[2] = {buffer_of(below(r, 300)), buffer_of(below(r, 100))}, out = lend(40, 0), joined[2];
    uint64_t at[2], from[2], numbers[NUMBERS];
    for (unsigned k = 0; k < 2; k++) {
        draw_bytes(r, &buffers[k]);
        joined[k] = lend(buffers[k].length + 1, 0);
        at[k] = from[k] = one_in(r, 3) ? 0 : below(r, buffers[k].length + (one_in(r, 8) ? 3 : 1));
    }
    for (uint64_t left = below(r, 40); left > 0; left--) {
        stretch(buffers, (uint32_t)below(r, 2), below(r, 30), at, &out, numbers);
        if (numbers[2] > 0)
            memcpy(joined[numbers[0]].bytes + at[numbers[0]] - from[numbers[0]],
                   buffers[numbers[0]].bytes + numbers[1], numbers[2]);
        memcpy(at, numbers + 3, sizeof at);
    }
    for (unsigned k = 0; k < 2; k++) {
        if (at[k] > from[k] && memcmp(joined[k].bytes, buffers[k].bytes + from[k], at[k] - from[k]) != 0)
            mismatch("the stretches of buffer %u do not join to what has been passed", k);
        end_lending(&buffers[k]);
        end_lending(&joined[k]);
    }
    end_lending(&out);
}

void stretches(void)
{
    struct random r = {6};
    by_hand();
    every_step();
    outs();
    in_part("lists of stretches");
    for (unsigned k = 0; k < 2000; k++)
        list_of_steps(&r);
}
