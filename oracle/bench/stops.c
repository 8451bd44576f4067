/* stop by value on a ring of 256 slots (crates/bench_stop), by which slots are out: nanoseconds a stop. Built with -DBEFORE it
 * has the stop of an earlier commit too, both in one run.
 *
 * stops                       the table
 * stops before|now ROW COUNT  that many stops of one side, for an instruction count */
#define _POSIX_C_SOURCE 199309L
#include <stdint.h>
#include <stdio.h>
#include <stdlib.h>
#include <string.h>
#include <time.h>

#include "usbfs_iso.h"

enum { SLOTS = 256, PACKETS = 8, BYTES = 192, FRAME_BYTES = 1, STOPS = 20000, GOES = 21 };

typedef uint64_t Stops(uint64_t packets, uint64_t packet_bytes, uint64_t base, const uint64_t *addresses, size_t slots,
                       const uint64_t *back, size_t back_len, uint64_t count, uint64_t *list, size_t list_len, void *block,
                       size_t block_len);

Stops usbfs_iso_stops, usbfs_iso_stops_before;
#ifdef BEFORE
static Stops *const before_stops = usbfs_iso_stops_before;
#else
static Stops *const before_stops = NULL;
#endif

/* All slots are sent; those from `first` on, `back` of them, come back. */
static const struct row {
    const char *out;
    size_t first, back;
} ROWS[] = {{"0 and 1", 2, 254}, {"0 and 255", 1, 254}, {"all", 0, 0}};
enum { ROW_COUNT = sizeof ROWS / sizeof ROWS[0] };

static uint64_t nanoseconds(void)
{
    struct timespec now;

    clock_gettime(CLOCK_MONOTONIC, &now);
    return (uint64_t)now.tv_sec * 1000000000 + (uint64_t)now.tv_nsec;
}

/* How long it takes to open a ring, to bring it into the row's state and to make `count` stops. */
static uint64_t took(Stops *stops, const struct row *row, uint64_t count)
{
    static uint64_t addresses[SLOTS], list[SLOTS], layout[USBFS_ISO_LAYOUT_NUMBERS];
    static unsigned char *block;
    uint64_t total, start, listed, spent;

    if (usbfs_iso_layout(SLOTS, PACKETS, BYTES, FRAME_BYTES, layout, sizeof layout) != 0)
        abort();
    total = layout[USBFS_ISO_LAYOUT_TOTAL];
    if (block == NULL && (block = aligned_alloc(layout[USBFS_ISO_LAYOUT_ALIGNMENT], total)) == NULL)
        abort();
    for (size_t i = 0; i < SLOTS; i++)
        addresses[i] = (uintptr_t)block + i * layout[USBFS_ISO_LAYOUT_HEADER_STRIDE];
    start = nanoseconds();
    listed = stops(PACKETS, BYTES, (uintptr_t)block, addresses, SLOTS, addresses + row->first, row->back, count, list, SLOTS,
                   block, total);
    spent = nanoseconds() - start;
    if (listed != (count == 0 ? 0 : SLOTS - row->back)) {
        fprintf(stderr, "stops: %llu listed\n", (unsigned long long)listed);
        exit(1);
    }
    return spent;
}

/* The fastest of all goes so far counts. */
static void fastest(Stops *stops, const struct row *row, uint64_t count, uint64_t *least)
{
    uint64_t now = took(stops, row, count);

    if (now < *least)
        *least = now;
}

static void table(const struct row *row)
{
    uint64_t least[4] = {UINT64_MAX, UINT64_MAX, UINT64_MAX, UINT64_MAX};
    double before, now;

    for (int go = 0; go < GOES; go++) {
        fastest(usbfs_iso_stops, row, 0, &least[0]);
        fastest(usbfs_iso_stops, row, STOPS, &least[1]);
        if (before_stops != NULL) {
            fastest(before_stops, row, 0, &least[2]);
            fastest(before_stops, row, STOPS, &least[3]);
        }
    }
    now = (double)(least[1] - least[0]) / STOPS;
    before = (double)(least[3] - least[2]) / STOPS;
    if (before_stops == NULL)
        printf("%-9s | %9.1f\n", row->out, now);
    else
        printf("%-9s | %9.1f | %9.1f %6.2f\n", row->out, before, now, now / before);
}

int main(int argc, char **argv)
{
    if (argc == 1) {
        puts(before_stops == NULL ? "slots out |   stop ns" : "slots out | before ns |    now ns  ratio");
        for (size_t i = 0; i < ROW_COUNT; i++)
            table(&ROWS[i]);
        return 0;
    }
    if (argc == 4 && strtoul(argv[2], NULL, 10) < ROW_COUNT) {
        Stops *stops = strcmp(argv[1], "before") == 0 ? before_stops : usbfs_iso_stops;

        if (stops != NULL) {
            took(stops, &ROWS[strtoul(argv[2], NULL, 10)], strtoull(argv[3], NULL, 10));
            return 0;
        }
    }
    fputs("stops [before|now ROW COUNT]\n", stderr);
    return 2;
}
