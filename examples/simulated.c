/*
 * A simulated usbfs with a loudspeaker, inside the process. The loudspeaker takes a packet a millisecond; URBs come
 * back when it has taken their packets, or as the events of a script or a seed have it (events.c).
 */
#include "player.h"
#include "simulated.h"
#include <errno.h>
#include <signal.h>
#include <stdio.h>
#include <stdlib.h>
#include <string.h>
#include <usbfs_iso.h>

enum { MOST_URBS = 256, MOST_PACKETS = 128 };

/* A URB that the kernel has: what it copied when it took it, and what it will report. */
struct transfer {
    struct usbdevfs_urb *urb;
    uint8_t *bytes;
    size_t next_byte;
    int next_packet;
    bool is_done;
    int status;
    unsigned lengths[MOST_PACKETS], actual[MOST_PACKETS];
    int statuses[MOST_PACKETS];
};

struct simulated {
    struct usbfs usbfs;
    struct events events;
    int64_t start, clock; /* milliseconds */
    struct transfer *transfers[MOST_URBS]; /* in the order in which they were taken */
    int count;
    uint64_t order; /* 0: URBs come back as they were taken */
    int64_t late_until, short_bytes, lost_packets, flawed_packets, refusal;
    bool is_pulled, is_gone; /* the cable; and the kernel knows it */
};

struct simulated_account simulated_account;

static struct simulated *of(struct usbfs *usbfs)
{
    return (struct simulated *)usbfs;
}

/* Ends a transfer; what it has not sent gets the status of a packet. */
static void end_transfer(struct transfer *t, int status, int packet_status)
{
    for (; t->next_packet < t->urb->number_of_packets; t->next_packet++)
        t->statuses[t->next_packet] = packet_status;
    t->status = status;
    t->is_done = true;
}

static void apply_event(struct simulated *s, const struct event *event)
{
    switch (event->kind) {
    case SHUFFLE:
        s->order = (uint64_t)event->number * 2 + 1;
        break;
    case LATE:
        s->late_until = s->clock + event->number;
        break;
    case SHORT:
        s->short_bytes = event->number;
        break;
    case LOST:
        s->lost_packets = event->number;
        break;
    case FLAWED:
        s->flawed_packets = event->number;
        break;
    case REFUSE:
        s->refusal = event->number;
        break;
    case INTERRUPT:
        raise(SIGINT);
        break;
    case MESSAGE:
        simulated_account.called[simulated_account.calls++] = simulated_account.offered;
        raise(SIGUSR1);
        break;
    case PULL:
        s->is_pulled = true;
        break;
    case GONE:
        s->is_gone = true;
        for (int k = 0; k < s->count; k++)
            if (!s->transfers[k]->is_done)
                end_transfer(s->transfers[k], -ESHUTDOWN, -ESHUTDOWN);
        break;
    }
}

/* Writes down what the loudspeaker plays of a packet. */
static void hear(const uint8_t *bytes, size_t count)
{
    struct simulated_account *account = &simulated_account;
    account->heard = realloc(account->heard, account->played + count + 1);
    account->starts = realloc(account->starts, (account->packets + 1) * sizeof account->starts[0]);
    if (account->heard == NULL || account->starts == NULL)
        abort();
    memcpy(account->heard + account->played, bytes, count);
    account->starts[account->packets++] = account->played;
    account->played += count;
}

/* The loudspeaker takes the next packet, or what there is of it. */
static void play_packet(struct simulated *s, struct transfer *t)
{
    int k = t->next_packet++;
    size_t length = t->lengths[k], sent = length;
    if (s->is_pulled || s->lost_packets > 0) {
        s->lost_packets -= s->lost_packets > 0;
        t->statuses[k] = -EPROTO;
        sent = 0;
    } else if (s->flawed_packets > 0) {
        s->flawed_packets--;
        t->statuses[k] = -ENOSR;
        sent = 0;
    } else if (s->short_bytes > 0) {
        sent -= (size_t)s->short_bytes < length ? (size_t)s->short_bytes : length;
        s->short_bytes = 0;
    }
    hear(t->bytes + t->next_byte, sent);
    t->actual[k] = (unsigned)(t->statuses[k] == -ENOSR ? length : sent);
    t->next_byte += length;
    if (t->next_packet == t->urb->number_of_packets)
        end_transfer(t, 0, 0);
}

/* A millisecond. */
static void tick(struct simulated *s)
{
    for (int k = 0; k < s->events.count; k++)
        if (s->events.list[k].at == s->clock)
            apply_event(s, &s->events.list[k]);
    for (int k = 0; k < s->count; k++)
        if (!s->transfers[k]->is_done) {
            play_packet(s, s->transfers[k]);
            break;
        }
    s->clock++;
}

static int64_t now(struct usbfs *usbfs)
{
    struct simulated *s = of(usbfs);
    while (s->events.is_real_time && s->clock < clock_ms(CLOCK_MONOTONIC) - s->start)
        tick(s);
    return s->clock;
}

static int submit(struct usbfs *usbfs, struct usbdevfs_urb *urb)
{
    struct simulated *s = of(usbfs);
    struct transfer *t = calloc(1, sizeof *t);
    int refusal = s->is_gone ? ENODEV : (int)s->refusal;
    s->refusal = 0;
    simulated_account.offered += (size_t)urb->number_of_packets;
    if (t == NULL || s->count == MOST_URBS || urb->number_of_packets < 1 || urb->number_of_packets > MOST_PACKETS)
        refusal = EINVAL;
    if (refusal == 0 && (t->bytes = malloc((size_t)urb->buffer_length + 1)) == NULL)
        refusal = ENOMEM;
    if (refusal != 0) {
        free(t);
        return refusal;
    }
    t->urb = urb;
    memcpy(t->bytes, urb->buffer, (size_t)urb->buffer_length);
    for (int k = 0; k < urb->number_of_packets; k++)
        t->lengths[k] = urb->iso_frame_desc[k].length;
    s->transfers[s->count++] = t;
    simulated_account.out++;
    simulated_account.taken += (size_t)urb->number_of_packets;
    return 0;
}

/* The place of a URB that may be reaped now, or -1. */
static int choose(struct simulated *s)
{
    int done[MOST_URBS], count = 0;
    for (int k = 0; k < s->count && s->clock >= s->late_until; k++)
        if (s->transfers[k]->is_done)
            done[count++] = k;
    return count == 0 ? -1 : done[s->order == 0 ? 0 : next_random(&s->order) % (unsigned)count];
}

/* Writes into the player's memory what became of a URB, as the kernel does when it is reaped. */
static void return_transfer(struct transfer *t)
{
    struct usbdevfs_urb *urb = t->urb;
    urb->status = t->status;
    urb->actual_length = urb->error_count = 0;
    for (int k = 0; k < urb->number_of_packets; k++) {
        urb->iso_frame_desc[k].actual_length = t->actual[k];
        urb->iso_frame_desc[k].status = (unsigned)t->statuses[k];
        urb->actual_length += (int)t->actual[k];
        urb->error_count += t->statuses[k] != 0;
    }
    simulated_account.out--;
    simulated_account.last_returned = (size_t)urb->actual_length;
    free(t->bytes);
    free(t);
}

static int reap(struct usbfs *usbfs, struct usbdevfs_urb **urb)
{
    struct simulated *s = of(usbfs);
    now(usbfs);
    int k = choose(s);
    if (k < 0)
        return s->is_gone ? ENODEV : EAGAIN;
    *urb = s->transfers[k]->urb;
    return_transfer(s->transfers[k]);
    s->count--;
    memmove(&s->transfers[k], &s->transfers[k + 1], (size_t)(s->count - k) * sizeof s->transfers[0]);
    return 0;
}

/* The loudspeaker goes on while URBs are discarded: in simulated time, a packet for each. */
static int discard(struct usbfs *usbfs, struct usbdevfs_urb *urb)
{
    struct simulated *s = of(usbfs);
    if (!s->events.is_real_time)
        tick(s);
    now(usbfs);
    if (s->is_gone)
        return ENODEV;
    for (int k = 0; k < s->count; k++)
        if (s->transfers[k]->urb == urb && !s->transfers[k]->is_done) {
            end_transfer(s->transfers[k], -ENOENT, -EXDEV);
            return 0;
        }
    return EINVAL;
}

static void wait_for_urb(struct usbfs *usbfs, int64_t milliseconds)
{
    struct simulated *s = of(usbfs);
    int64_t end = now(usbfs) + milliseconds;
    do {
        if (s->events.is_real_time)
            sleep_ms(1);
        else
            tick(s);
    } while (now(usbfs) < end && choose(s) < 0);
}

static void close_simulated(struct usbfs *usbfs)
{
    struct simulated *s = of(usbfs);
    for (int k = 0; k < s->count; k++) {
        free(s->transfers[k]->bytes);
        free(s->transfers[k]);
    }
    free(s);
}

/* A full-speed loudspeaker of 192 bytes a millisecond. */
struct usbfs *open_simulated(const char *script)
{
    struct simulated *s = calloc(1, sizeof *s);
    if (s == NULL || !read_events(script, &s->events)) {
        free(s);
        return NULL;
    }
    s->usbfs = (struct usbfs){{USBFS_ISO_SPEED_FULL, 1, 1, 1, 192}, submit, reap, discard, wait_for_urb, now,
                              close_simulated};
    s->start = clock_ms(CLOCK_MONOTONIC);
    return &s->usbfs;
}
