/*
 * What the player's files share. player.c plays; sound.c makes the sound; feed.c says what of it is sent next;
 * loudspeaker.c finds a USB loudspeaker and reaches it; simulated.c and events.c stand in for one; counts.c shows the
 * counts; clock.c has the time.
 */
#ifndef PLAYER_H
#define PLAYER_H

#include <linux/usbdevice_fs.h>
#include <stdbool.h>
#include <stddef.h>
#include <stdint.h>
#include <time.h>

int64_t clock_ms(clockid_t clock);
void sleep_ms(long milliseconds);

/* PCM sound, whole frames. */
struct sound {
    uint8_t *bytes;
    size_t length;
    uint32_t rate; /* frames a second */
    uint32_t channels;
    uint32_t sample_bytes;
    uint32_t frame_bytes; /* channels * sample_bytes */
};

/* These say on standard error what is wrong with the sound, and give false. */
bool read_wav(const char *path, struct sound *sound);
bool make_tone(uint64_t milliseconds, struct sound *sound);

/* The sound to send: the programme, and an emergency message that takes its place when it is called for. */
struct feed {
    struct sound programme, message;   /* of one rate and one kind of frames; no message: of length 0 */
    bool is_called;                    /* the message flag */
    uint64_t programme_at, message_at; /* the reading positions: bytes that the kernel has taken */
    uint64_t messages;                 /* how often the message was begun */
};

/* What a buffer was filled with, the message's bytes before the programme's; and the positions behind it. */
struct filling {
    uint64_t bytes, of_message;
    uint64_t programme_next, message_next;
};

/*
 * Reads what is to be played: a WAV file or, without one, a tone; and the message, if there is one. False if there is
 * something wrong, which it says on standard error.
 */
bool read_feed(const char *wav, uint64_t tone_ms, const char *message, struct feed *feed);

void call_message(struct feed *feed);
bool is_used_up(const struct feed *feed);
uint32_t fill_from(const struct feed *feed, uint8_t *buffer, uint64_t capacity, struct filling *filling);
void take_filling(struct feed *feed, const struct filling *filling); /* the kernel has taken the buffer */

/* An isochronous OUT endpoint, as USB describes it. */
struct endpoint {
    int32_t speed; /* as USBDEVFS_GET_SPEED gives it */
    uint8_t address;
    uint8_t attributes;
    uint8_t interval; /* bInterval */
    uint16_t max_packet_size;
};

/*
 * usbfs as the player uses it: the kernel's, or a simulated one. submit, reap and discard give 0 or an errno; reap
 * gives EAGAIN while no URB is done. wait ends when a URB is done, at a signal, or after so many milliseconds. now
 * counts milliseconds. close gives everything back; from then on the kernel writes into no URB.
 */
struct usbfs {
    struct endpoint endpoint;
    int (*submit)(struct usbfs *usbfs, struct usbdevfs_urb *urb);
    int (*reap)(struct usbfs *usbfs, struct usbdevfs_urb **urb);
    int (*discard)(struct usbfs *usbfs, struct usbdevfs_urb *urb);
    void (*wait)(struct usbfs *usbfs, int64_t milliseconds);
    int64_t (*now)(struct usbfs *usbfs);
    void (*close)(struct usbfs *usbfs);
};

/* These say on standard error what is wrong, and give NULL. device is BUS:DEV, or NULL for the first that fits. */
struct usbfs *open_loudspeaker(const char *device, const struct sound *sound);
struct usbfs *open_simulated(const char *script);

/* Prints a line for each isochronous OUT endpoint of this machine. Gives an exit status. */
int list_endpoints(void);

/* What a counter screen shows of a stream. */
struct counts {
    int64_t taken; /* when, in milliseconds since 1970 */
    bool is_running;
    uint64_t sent, back;         /* buffers */
    uint64_t played, short_of;   /* bytes, of the buffers that came back */
    uint64_t errors;             /* packets and buffers that came back with an error */
    uint64_t gaps;               /* how often all buffers had come back and none was there to send */
    uint64_t played_ms, all_ms;  /* how much of the sound has really been played */
    uint64_t message_ms, message_all_ms; /* and how much of the emergency message, as often as it was called for */
};

void print_counts_heading(void);
void print_counts(const struct counts *counts);
bool write_counts(const char *path, const struct counts *counts);
int show_screen(const char *path);

#endif
