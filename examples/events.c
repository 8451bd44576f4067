/*
 * What happens to a simulated usbfs, and when. A script has an event a line, with its millisecond; # begins a comment:
 *   realtime          a millisecond takes a millisecond; without this line, time passes as the player waits
 *   shuffle AT SEED   from now on URBs that are done come back in any order
 *   late AT MS        no URB comes back for so long
 *   short AT BYTES    so many bytes of the next packet are not played; the kernel calls it no error
 *   lost AT PACKETS   nothing is played of the next so many packets; each has status -EPROTO
 *   flawed AT PACKETS nothing is played of the next so many packets, but the kernel says that all was sent, with -ENOSR
 *   refuse AT ERRNO   the next URB is refused
 *   interrupt AT 0    Ctrl-C
 *   message AT 0      SIGUSR1: the emergency message is called for
 *   pull AT MS        the cable is pulled. The kernel finds out after MS milliseconds: until then URBs come back with
 *                     status 0 and nothing played; then those that are left with -ESHUTDOWN, and all it says is ENODEV
 */
#include "simulated.h"
#include <errno.h>
#include <inttypes.h>
#include <stdio.h>
#include <stdlib.h>
#include <string.h>

static const char *const names[] = {"shuffle", "late", "short", "lost", "flawed", "refuse", "interrupt",
                                    "message", "pull"};

/* The next of a sequence of pseudo-random numbers (xorshift64*); its state must not be 0. */
uint64_t next_random(uint64_t *state)
{
    *state ^= *state >> 12;
    *state ^= *state << 25;
    *state ^= *state >> 27;
    return *state * 0x2545f4914f6cdd1d >> 16;
}

/* A pull is two events: the cable goes, and later the kernel finds out. */
static bool add_event(struct events *events, enum event_kind kind, int64_t at, int64_t number)
{
    if (events->count + 2 > MOST_EVENTS || at < 0 || number < 0)
        return false;
    events->list[events->count++] = (struct event){kind, at, number};
    if (kind == PULL)
        events->list[events->count++] = (struct event){GONE, at + number, 0};
    return true;
}

/* Up to five events of any kind in the first two seconds; and up to twice a message, called for twice within a second. */
static void events_from_seed(struct events *events, uint64_t seed)
{
    static const int errnos[] = {ENODEV, ENOMEM, EACCES, EPERM, ENOTTY, EINVAL, ENOSPC, ESHUTDOWN};
    static const int64_t limits[] = {1000, 400, 200, 20, 0, 1, 1, 1, 60};
    uint64_t random = seed * 2654435761u + 1;
    for (int k = 0; k < 8; k++)
        next_random(&random);
    for (uint64_t left = next_random(&random) % 6; left > 0; left--) {
        static const enum event_kind kinds[] = {SHUFFLE, LATE, SHORT, LOST, REFUSE, INTERRUPT, PULL};
        enum event_kind kind = kinds[next_random(&random) % (sizeof kinds / sizeof kinds[0])];
        int64_t at = (int64_t)(next_random(&random) % 2000), number = 1;
        if (kind == REFUSE)
            number = errnos[next_random(&random) % (sizeof errnos / sizeof errnos[0])];
        else
            number += (int64_t)(next_random(&random) % (uint64_t)limits[kind]);
        if (kind == LATE && next_random(&random) % 8 == 0)
            number *= 20; /* longer than a player has patience */
        add_event(events, kind, at, number);
    }
    for (uint64_t left = next_random(&random) % 3; left > 0; left--) {
        int64_t at = (int64_t)(next_random(&random) % 2000);
        add_event(events, MESSAGE, at, 1);
        add_event(events, MESSAGE, at + (int64_t)(next_random(&random) % 1000), 1);
    }
}

/* Reads a line of a script. False if it is wrong. */
static bool read_line(struct events *events, const char *line)
{
    char name[20], rest[2];
    int64_t at, number;
    int kind = 0, words = sscanf(line, "%19s %" SCNd64 " %" SCNd64 " %1s", name, &at, &number, rest);
    if (words == 1 && strcmp(name, "realtime") == 0)
        return events->is_real_time = true;
    while (words == 3 && kind < GONE && strcmp(name, names[kind]) != 0)
        kind++;
    return words <= 0 || (words == 3 && kind < GONE && add_event(events, (enum event_kind)kind, at, number));
}

/* Reads a script. Gives the number of the first line that is wrong, or 0. */
static int read_script(struct events *events, FILE *file)
{
    char line[200];
    for (int number = 1; fgets(line, sizeof line, file) != NULL; number++) {
        line[strcspn(line, "#\n")] = '\0';
        if (!read_line(events, line))
            return number;
    }
    return 0;
}

/* `script` is the name of a file, or a number: a seed. Says on standard error what is wrong, and gives false. */
bool read_events(const char *script, struct events *events)
{
    *events = (struct events){.count = 0};
    if (script[strspn(script, "0123456789")] == '\0') {
        events_from_seed(events, strtoull(script, NULL, 10));
        return true;
    }
    FILE *file = fopen(script, "r");
    if (file == NULL) {
        fprintf(stderr, "player: %s: %s\n", script, strerror(errno));
        return false;
    }
    int wrong = read_script(events, file);
    fclose(file);
    if (wrong != 0)
        fprintf(stderr, "player: %s: line %d is no event\n", script, wrong);
    return wrong == 0;
}
