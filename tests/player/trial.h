/* What a seed has the player play (trial.c), and what should then have been heard (stream.c). */
#ifndef TRIAL_H
#define TRIAL_H

#include <stdbool.h>
#include <stddef.h>
#include <stdint.h>

/* Stereo frames of 16 or 24 bits a sample, which tell their own number. */
enum { MOST_FRAME_BYTES = 6 };
enum { MESSAGE_FRAME = 1 << 30 }; /* the number of the message's first frame: no frame of the sound has one as high */

struct trial {
    uint64_t seed;
    char wav[64], message[64], slots[8], packets[8], script[24];
    uint32_t rate;
    size_t frames, message_frames; /* no message: 0 */
    size_t frame_bytes, packets_in_slot;
};

void choose_trial(struct trial *c, uint64_t seed, const char *directory);
void put_frame(const struct trial *c, uint8_t *at, size_t number);
bool write_wavs(const struct trial *c);

/*
 * Whether all of the seed's events are of these kinds: URBs come back late and in any order; the message is called for;
 * and, if so, Ctrl-C.
 */
bool is_harmless(const struct trial *c, bool with_interrupts);

/*
 * What should have been sent, by the moments when the message was called for: the frames' numbers, where each packet
 * starts among them, and how often the message was begun.
 */
struct stream {
    size_t *frames, *starts;
    size_t count, packets, messages;
    bool is_complete; /* sound and message are used up behind it, and no buffer was refused */
};

struct stream sent_by_rule(const struct trial *c);
void check_heard(const struct trial *c, const struct stream *sent, bool is_whole, bool has_no_gap);
uint64_t heard_of_message(const struct trial *c, const struct stream *sent);

#endif
