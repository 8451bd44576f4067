/* The player with its invariants checked at each call: prints on standard error how many calls were checked. */
#include "invariants.h"
#include <inttypes.h>
#include <stdio.h>

int player_main(int count, char **arguments); /* main of examples/player.c */

int main(int count, char **arguments)
{
    int status = player_main(count, arguments);
    fprintf(stderr, "invariants: %" PRIu64 " calls, %" PRIu64 " wrong\n", invariants.calls, invariants.wrong);
    return status;
}
