/* The simulated usbfs: its events, and what it really did, for tests to hold the player's word against. */
#ifndef SIMULATED_H
#define SIMULATED_H

#include <stdbool.h>
#include <stddef.h>
#include <stdint.h>

enum { MOST_EVENTS = 64 };
enum event_kind { SHUFFLE, LATE, SHORT, LOST, FLAWED, REFUSE, INTERRUPT, MESSAGE, PULL, GONE };

struct event {
    enum event_kind kind;
    int64_t at, number;
};

struct events {
    struct event list[MOST_EVENTS];
    int count;
    bool is_real_time;
};

bool read_events(const char *script, struct events *events);
uint64_t next_random(uint64_t *state);

struct simulated_account {
    uint8_t *heard;       /* every byte that the loudspeaker played, in order */
    size_t played;        /* how many these are */
    size_t *starts;       /* how many had been played before each packet that it took */
    size_t packets;
    size_t out;           /* URBs that were accepted and not reaped */
    size_t offered, taken; /* packets of the URBs that were submitted; and of those of them that were accepted */
    size_t called[MOST_EVENTS]; /* how many had been submitted each time that the message was called for */
    size_t calls;
    size_t last_returned; /* bytes played of the URB that was reaped last */
};

extern struct simulated_account simulated_account;

#endif
