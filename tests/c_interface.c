/*
 * Tests the C interface of the library: include/usbfs_iso.h against build/libusbfs_iso.a, call by call beside a model
 * that is written from the paper. Ends at the first mismatch.
 * usage: c_interface [SEED [CALLS [brief]]]: the random run's seed and calls; brief leaves out the damaged images.
 */
#include "c_check.h"
#include <stdio.h>
#include <stdlib.h>

int main(int count, char **arguments)
{
    uint64_t seed = count > 1 ? strtoull(arguments[1], NULL, 0) : 2026;
    uint64_t calls = count > 2 ? strtoull(arguments[2], NULL, 0) : 1000000;
    struct damage damage = {0, 0, 0};
    edges_of_two_slots();
    edges_of_r();
    edges_of_frames();
    traps();
    every_refusal();
    plain_functions();
    stretches();
    odd_slices();
    if (count <= 3)
        damage = damaged_images();
    random_run(seed, calls);
    printf("c_interface: %llu calls, %llu truncations, %llu byte changes (%llu of them sound images), "
           "%llu random calls of seed %llu, mismatches 0\n",
           (unsigned long long)figures.calls, (unsigned long long)damage.truncations,
           (unsigned long long)damage.changes, (unsigned long long)damage.sound, (unsigned long long)calls,
           (unsigned long long)seed);
    return 0;
}
