/* The functions without an image: layout, image size, schedules, names and texts of refusals. */
#include "c_check.h"
#include "c_bytes.h"
#include <string.h>
#include <usbfs_iso.h>

/* What a schedule is derived from. */
struct wish {
    int32_t speed;
    uint8_t b_interval;
    uint64_t packet_bytes, urbs;
    uint32_t depth_us;
    uint64_t packets_per_urb;
};

static uint64_t rounded_up(uint64_t a, uint64_t b)
{
    return a / b + (a % b != 0);
}

/* The paper's derive. */
static uint32_t derived(const struct wish *w, uint64_t numbers[4])
{
    bool is_full = w->speed == 2;
    if (!is_full && w->speed != 3 && w->speed != 5 && w->speed != 6)
        return 21;
    if (w->b_interval < 1 || w->b_interval > 16)
        return 22;
    if (w->packet_bytes == 0)
        return 23;
    if (w->packets_per_urb == 0)
        return 24;
    if (w->packets_per_urb > MOST_PACKETS)
        return 3;
    uint64_t times = (uint64_t)1 << (w->b_interval - 1), most = is_full ? 1024 : w->speed == 3 ? 8192 : 32768;
    uint64_t interval = (is_full ? 1000 : 125) * (times < most ? times : most);
    uint64_t urbs = w->urbs != 0 ? w->urbs : rounded_up(rounded_up(w->depth_us, interval), w->packets_per_urb);
    numbers[0] = interval;
    numbers[1] = w->packets_per_urb;
    numbers[2] = urbs < 2 ? 2 : urbs;
    numbers[3] = w->packet_bytes;
    return 0;
}

/* Holds what a function returned and wrote against the numbers; a refusal leaves out as it was. */
static void same_numbers(struct lent *out, uint32_t returned, uint32_t refusal)
{
    figures.refusals[refusal]++;
    same_number("returned", returned, refusal);
    same_bytes("out", out);
}

static void derive(const struct wish *w, struct lent *out)
{
    uint64_t numbers[4];
    uint32_t refusal = derived(w, numbers);
    figures.calls++;
    expect_out(out, numbers, refusal ? 0 : 4);
    same_numbers(out, usbfs_iso_derive(w->speed, w->b_interval, w->packet_bytes, w->urbs, w->depth_us,
                                       w->packets_per_urb, out->bytes, out->length), refusal);
}

static void plan(struct wish w, uint8_t attributes, uint16_t max_packet_size, struct lent *out)
{
    uint64_t numbers[4];
    w.packet_bytes = max_packet_size % 2048 * (uint64_t)(1 + max_packet_size / 2048 % 4);
    uint32_t refusal = attributes % 4 != 1 ? 26 : derived(&w, numbers);
    figures.calls++;
    expect_out(out, numbers, refusal ? 0 : 4);
    same_numbers(out, usbfs_iso_plan(w.speed, attributes, max_packet_size, w.b_interval, w.urbs, w.depth_us,
                                     w.packets_per_urb, out->bytes, out->length), refusal);
}

/* The paper's edges by number, and those of request 2026-05: Super and SuperPlus 14 to 16 with High's 15. */
static void schedule_edges(struct lent *out)
{
    static const struct {
        struct wish wish;
        uint64_t interval, urbs;
    } cases[] = {
        {{3, 4, 192, 0, 20000, 8}, 1000, 3},  {{2, 11, 192, 0, 1, 1}, 1024000, 2}, {{2, 12, 192, 0, 1, 1}, 1024000, 2},
        {{3, 14, 192, 0, 1, 1}, 1024000, 2},  {{3, 16, 192, 0, 1, 1}, 1024000, 2}, {{3, 4, 192, 0, 0, 8}, 1000, 2},
        {{3, 4, 192, 1, 20000, 8}, 1000, 2},  {{6, 1, 192, UINT64_MAX, 0, 8}, 125, UINT64_MAX},
        {{3, 15, 192, 0, 1, 1}, 1024000, 2},  {{5, 14, 192, 0, 1, 1}, 1024000, 2}, {{6, 14, 192, 0, 1, 1}, 1024000, 2},
        {{5, 15, 192, 0, 1, 1}, 2048000, 2},  {{6, 15, 192, 0, 1, 1}, 2048000, 2}, {{5, 16, 192, 0, 1, 1}, 4096000, 2},
        {{6, 16, 192, 0, 1, 1}, 4096000, 2},  {{5, 15, 192, 0, 20000000, 1}, 2048000, 10},
        {{5, 16, 192, 0, 20000000, 1}, 4096000, 5},
    };
    in_part("schedules of the paper");
    for (unsigned k = 0; k < sizeof cases / sizeof cases[0]; k++) {
        derive(&cases[k].wish, out);
        same_number("interval", number_at(out->bytes, 8), cases[k].interval);
        same_number("URBs", number_at(out->bytes + 16, 8), cases[k].urbs);
    }
    plan(cases[0].wish, 1, 0x1400, out);
    same_number("packet bytes of 1400 hex", number_at(out->bytes + 24, 8), 3072);
}

/* Every combination of these values, with out slices of every length by turns. */
static void schedules(void)
{
    static const int32_t speeds[] = {INT32_MIN, -1, 0, 1, 2, 3, 4, 5, 6, 7, 258, INT32_MAX};
    static const uint8_t intervals[] = {0, 1, 4, 11, 12, 14, 15, 16, 17, 255};
    static const uint64_t sizes[] = {0, 1, 192, UINT64_MAX}, counts[] = {0, 1, 2, 3, UINT64_MAX};
    static const uint32_t depths[] = {0, 1, 376, 20000, 20001, UINT32_MAX};
    static const uint64_t packets[] = {0, 1, 8, 128, 129, UINT64_MAX};
    static const uint16_t max_sizes[] = {0, 192, 0x0800, 0x1400, 0x1fff, 0xe064, 0xffff};
    unsigned turn = 0;
    struct lent outs[41];
    for (size_t length = 0; length < 41; length++)
        outs[length] = length == 0 ? lend_nothing() : lend(length, 0);
    schedule_edges(&outs[40]);
    in_part("schedules");
    for (unsigned k = 0; k < 12 * 10 * 4 * 5 * 6 * 6; k++) {
        struct wish w = {speeds[k % 12], intervals[k / 12 % 10], sizes[k / 120 % 4], counts[k / 480 % 5],
                         depths[k / 2400 % 6], packets[k / 14400 % 6]};
        derive(&w, &outs[turn++ % 41]);
        plan(w, (uint8_t)(k * 7 % 256), max_sizes[k % 7], &outs[turn % 41]);
        plan(w, 1, max_sizes[k % 7], &outs[turn % 41]);
    }
    for (size_t length = 0; length < 41; length++)
        end_lending(&outs[length]);
}

static uint32_t layout(uint64_t n, uint64_t p, uint64_t b, uint64_t f, struct lent *out)
{
    struct layout l = {0, 0, 0, 0, 0, 0};
    uint32_t refusal = model_layout(n, p, b, f, &l);
    uint64_t numbers[6] = {l.header_stride, l.data_base, l.data_stride, l.total, l.alignment, l.capacity};
    figures.calls++;
    expect_out(out, numbers, refusal ? 0 : 6);
    same_numbers(out, usbfs_iso_layout(n, p, b, f, out->bytes, out->length), refusal);
    return refusal;
}

/* A layout by hand: n, p, b, f, and its numbers. */
static void expect_layout(const uint64_t of[4], const uint64_t numbers[6], struct lent *out)
{
    layout(of[0], of[1], of[2], of[3], out);
    for (unsigned k = 0; k < 6; k++)
        same_number("by hand, layout", number_at(out->bytes + 8 * k, 8), numbers[k]);
}

/* The paper's layouts, and with frames: of these only the capacity is another. */
static void layouts_by_hand(struct lent *out)
{
    uint64_t most = ((uint64_t)1 << 63) - 128; /* of 2 slots and 1 packet: the total is 2^64 - 64 */
    static const uint64_t frames[][2] = {{6, 768}, {7, 784}, {50, 800}, {51, 408}, {99, 792}, {100, 800}};
    expect_layout((uint64_t[]){2, 1, 192, 1}, (uint64_t[]){72, 192, 192, 576, 64, 192}, out);
    expect_layout((uint64_t[]){4, 8, 100, 1}, (uint64_t[]){152, 640, 832, 3968, 64, 800}, out);
    expect_layout((uint64_t[]){2, 128, 1, 1}, (uint64_t[]){1592, 3200, 128, 3456, 64, 128}, out);
    expect_layout((uint64_t[]){2, 1, most, 1}, (uint64_t[]){72, 192, most, 0 - (uint64_t)64, 64, most}, out);
    expect_layout((uint64_t[]){2, 1, most, most - 1}, (uint64_t[]){72, 192, most, 0 - (uint64_t)64, 64, most - 1}, out);
    for (unsigned k = 0; k < sizeof frames / sizeof frames[0]; k++)
        expect_layout((uint64_t[]){4, 8, 100, frames[k][0]}, (uint64_t[]){152, 640, 832, 3968, 64, frames[k][1]}, out);
}

/* Each with all that is tested later wrong too. */
static void refused_layouts(struct lent *out)
{
    static const uint64_t cases[][5] = {
        {1, 0, 0, 0, 1},
        {2, 129, 0, 0, 2},
        {2, 129, UINT64_MAX, 0, 3},
        {2, 128, UINT64_MAX, 0, 4},
        {2, 1, ((uint64_t)1 << 63) - 127, 1, 4},
        {4, 8, 100, 0, 33},
        {4, 8, 100, 101, 33},
        {4, 8, 100, ((uint64_t)1 << 32) + 6, 33},
        {4, 8, 100, UINT64_MAX, 33},
    };
    for (unsigned k = 0; k < sizeof cases / sizeof cases[0]; k++)
        same_number("by hand, refusal", layout(cases[k][0], cases[k][1], cases[k][2], cases[k][3], out), cases[k][4]);
}

static void layouts(void)
{
    static const uint64_t values[] = {0, 1, 2, 3, 4, 8, 100, 127, 128, 129, 192, 256, 49152, 49153, (uint64_t)1 << 32,
                                      (uint64_t)1 << 57, (uint64_t)1 << 58, ((uint64_t)1 << 58) + 1, (uint64_t)1 << 63,
                                      UINT64_MAX - 63, UINT64_MAX - 62, UINT64_MAX / 128, UINT64_MAX / 136, UINT64_MAX};
    enum { VALUES = sizeof values / sizeof values[0], FRAMES = 8 };
    struct lent out = lend(48, 0), longer = lend(72, 0), shorter = lend(17, 0), none = lend_nothing();
    struct lent *const outs[4] = {&out, &longer, &shorter, &none};
    in_part("layouts");
    layouts_by_hand(&out);
    refused_layouts(&out);
    for (unsigned k = 0; k < VALUES * VALUES * VALUES * FRAMES; k++) {
        uint64_t b = values[k / VALUES / VALUES % VALUES];
        const uint64_t frames[FRAMES] = {0, 1, 2, 6, b - 1, b, b + 1, UINT64_MAX};
        layout(values[k % VALUES], values[k / VALUES % VALUES], b, frames[k / (VALUES * VALUES * VALUES)], outs[k % 4]);
    }
    for (unsigned k = 0; k < 4; k++)
        end_lending(outs[k]);
}

static void image_sizes(void)
{
    in_part("image sizes");
    for (uint64_t n = 0; n < 600; n++)
        same_number("image size", usbfs_iso_image_size(n), n < 2 || n > 256 ? 0 : 200 + 5 * n);
    same_number("image size of 2^32 + 4 slots", usbfs_iso_image_size(((uint64_t)1 << 32) + 4), 0);
    same_number("image size of 2^64 - 1 slots", usbfs_iso_image_size(UINT64_MAX), 0);
    figures.calls += 602;
}

typedef uint64_t (*string_of)(uint32_t number, void *text, size_t text_len);

/* The string in rooms of every length up to its own and two more; whole: all of it, which is at most 200 long. */
static void strings(string_of give, uint32_t number, char whole[201])
{
    uint64_t length = give(number, NULL, 0);
    if (length > 200)
        mismatch("refusal %u: a string of %llu bytes", (unsigned)number, (unsigned long long)length);
    memset(whole, 0, 201);
    same_number("string's length", give(number, whole, 201), length);
    same_number("string's length as written", strlen(whole), length);
    for (size_t room = 1; room <= length + 3; room++) {
        struct lent text = lend(room, 0x7e);
        size_t kept = length < room ? length : room - 1;
        memcpy(text.twin, whole, kept);
        text.twin[kept] = 0;
        same_number("string's length", give(number, text.bytes, room), length);
        same_bytes("string", &text);
        end_lending(&text);
        figures.calls++;
    }
}

static bool is_printable(const char *text)
{
    while (*text >= ' ' && *text <= '~')
        text++;
    return *text == 0;
}

/* A text of a number that is no refusal is empty. */
static void no_strings(void)
{
    static const uint32_t others[] = {0, 32, 34, 256, 257, 289, 65537, UINT32_MAX};
    char whole[201];
    for (unsigned k = 0; k < sizeof others / sizeof others[0]; k++) {
        strings(usbfs_iso_refusal_name, others[k], whole);
        same_number("length of no name", strlen(whole), 0);
        strings(usbfs_iso_refusal_text, others[k], whole);
        same_number("length of no text", strlen(whole), 0);
    }
}

/* Names are those of crates/error; texts are printable words, and each refusal has its own. */
static void refusal_strings(void)
{
    static const char *const names[LAST_REFUSAL + 1] = {
        "", "TooFewSlots", "ZeroSize", "TooManyPackets", "LayoutOverflow", "TooLarge", "BlockLength", "BaseAddress",
        "Unsound", "WrongHand", "CommitTooLong", "PacketCount", "PacketTooLong", "Disconnected", "UsbfsMemory",
        "PermissionDenied", "Unsupported", "Io", "StrayNotice", "Underrun", "ListTooShort", "UnsupportedSpeed",
        "InvalidInterval", "ZeroPacketBytes", "ZeroPackets", "ProductOverflow", "NotIsochronous", "IntervalUnknown",
        "PacketSizeUnknown", "PacketBytesTooLarge", "InvalidEndpoint", "NotAnImage", NULL, "FrameSize",
    };
    char name[201], texts[LAST_REFUSAL + 1][201] = {""};
    in_part("names and texts of refusals");
    for (uint32_t number = 1; number <= LAST_REFUSAL; number++) {
        if (names[number] == NULL)
            continue;
        strings(usbfs_iso_refusal_name, number, name);
        if (strcmp(name, names[number]) != 0)
            mismatch("name of %u: expected %s, got %s", (unsigned)number, names[number], name);
        strings(usbfs_iso_refusal_text, number, texts[number]);
        if (strchr(texts[number], ' ') == NULL || !is_printable(texts[number]))
            mismatch("text of %u: expected some words, got \"%s\"", (unsigned)number, texts[number]);
        for (uint32_t other = 1; other < number; other++)
            if (strcmp(texts[number], texts[other]) == 0)
                mismatch("%u and %u have one text", (unsigned)other, (unsigned)number);
    }
    no_strings();
}

void plain_functions(void)
{
    layouts();
    image_sizes();
    schedules();
    refusal_strings();
}
