/* What should have been sent and heard, by what the simulated usbfs wrote down. */
#include "trial.h"
#include "../../examples/simulated.h"
#include "invariants.h"
#include <stdlib.h>
#include <string.h>

/* The frames that are due before a packet. */
static size_t frames_by(const struct trial *c, size_t packet)
{
    return (size_t)((uint64_t)packet * c->rate / 1000);
}

/*
 * In each packet of the buffers that were submitted the frames that are due: of the message from the first buffer behind
 * a call on, unless it is under way; of the sound otherwise, and right behind the message.
 */
struct stream sent_by_rule(const struct trial *c)
{
    const struct simulated_account *account = &simulated_account;
    struct stream s = {.packets = account->offered};
    size_t sound = 0, message = c->message_frames, call = 0;
    s.frames = calloc(frames_by(c, s.packets) + 1, sizeof s.frames[0]);
    s.starts = calloc(s.packets + 1, sizeof s.starts[0]);
    if (s.frames == NULL || s.starts == NULL)
        abort();
    for (size_t packet = 0; packet <= s.packets; packet++) {
        for (; packet % c->packets_in_slot == 0 && call < account->calls && account->called[call] <= packet; call++)
            if (message == c->message_frames && message > 0) {
                message = 0;
                s.messages++;
            }
        s.starts[packet] = s.count;
        if (packet == s.packets)
            break; /* what is called for behind the last buffer is not sent */
        for (size_t due = frames_by(c, packet + 1) - frames_by(c, packet); due > 0; due--)
            if (message < c->message_frames)
                s.frames[s.count++] = MESSAGE_FRAME + message++;
            else if (sound < c->frames)
                s.frames[s.count++] = sound++;
    }
    s.is_complete = sound == c->frames && message == c->message_frames && account->offered == account->taken;
    return s;
}

/* The end of a packet that was heard. */
static size_t end_of(size_t packet)
{
    const struct simulated_account *account = &simulated_account;
    return packet + 1 < account->packets ? account->starts[packet + 1] : account->played;
}

/*
 * Every packet heard is a piece of what was sent that stands behind the one before it; right behind it and in whole
 * frames, if there may be no gap; and where all is played, the frames that are due.
 */
void check_heard(const struct trial *c, const struct stream *sent, bool is_whole, bool has_no_gap)
{
    const struct simulated_account *account = &simulated_account;
    size_t next = 0;
    check_that(account->packets <= sent->packets, "no more packets are heard than were sent");
    for (size_t k = 0; k < account->packets && k < sent->packets; k++) {
        size_t start = account->starts[k], end = end_of(k);
        uint8_t frame[MOST_FRAME_BYTES];
        if (is_whole)
            check_that(start == c->frame_bytes * sent->starts[k], "each packet has the frames that are due");
        check_that(!has_no_gap || (end - start) % c->frame_bytes == 0, "no packet ends inside a frame");
        if (end - start < c->frame_bytes)
            continue;
        for (; next < sent->count; next++) {
            put_frame(c, frame, sent->frames[next]);
            if (memcmp(frame, account->heard + start, c->frame_bytes) == 0)
                break;
            check_that(!has_no_gap, "what was heard has no gap");
        }
        for (; end - start >= c->frame_bytes; start += c->frame_bytes, next++) {
            put_frame(c, frame, next < sent->count ? sent->frames[next] : 0);
            check_that(next < sent->count && memcmp(frame, account->heard + start, c->frame_bytes) == 0,
                       "what was heard is the sound and the message, in order");
        }
    }
}

/* How many of the bytes heard are the message's. A packet that is heard is the one that was sent at its place. */
uint64_t heard_of_message(const struct trial *c, const struct stream *sent)
{
    uint64_t bytes = 0;
    for (size_t k = 0; k < simulated_account.packets && k < sent->packets; k++)
        for (size_t at = 0; at < end_of(k) - simulated_account.starts[k]; at++) {
            size_t frame = sent->starts[k] + at / c->frame_bytes;
            bytes += frame < sent->count && sent->frames[frame] >= MESSAGE_FRAME;
        }
    return bytes;
}
