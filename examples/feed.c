/*
 * What is sent next: the programme or, from the moment when it is called for until it is used up, an emergency message.
 * The library says which (usbfs_iso_stretch). The positions are always those that it gave last, or a message's
 * beginning, so it never refuses them.
 */
#include "player.h"
#include <inttypes.h>
#include <stdio.h>
#include <string.h>
#include <usbfs_iso.h>

/* A message must be of the programme's kind, since it takes its place in the packets. */
bool read_feed(const char *wav, uint64_t tone_ms, const char *message, struct feed *feed)
{
    const struct sound *p = &feed->programme, *m = &feed->message;
    if (!(wav != NULL ? read_wav(wav, &feed->programme) : make_tone(tone_ms, &feed->programme)))
        return false;
    if (message == NULL)
        return true;
    if (!read_wav(message, &feed->message))
        return false;
    bool is_same = m->rate == p->rate && m->channels == p->channels && m->sample_bytes == p->sample_bytes;
    if (!is_same)
        fprintf(stderr, "player: %s: not as the sound is, %" PRIu32 " Hz, %" PRIu32 " channels of %" PRIu32 " bits\n",
                message, p->rate, p->channels, 8 * p->sample_bytes);
    return is_same;
}

/* A call while the message is under way changes nothing; one behind its end has it sent once more. */
void call_message(struct feed *feed)
{
    bool is_under_way = feed->is_called && feed->message_at < feed->message.length;
    if (feed->message.length == 0 || is_under_way)
        return;
    feed->is_called = true;
    feed->message_at = 0;
    feed->messages++;
}

bool is_used_up(const struct feed *feed)
{
    return feed->programme_at == feed->programme.length &&
           (!feed->is_called || feed->message_at == feed->message.length);
}

/*
 * Fills a buffer stretch by stretch, so that behind the message's end the programme goes on in the same buffer. Gives 0,
 * or the refusal.
 */
uint32_t fill_from(const struct feed *feed, uint8_t *buffer, uint64_t capacity, struct filling *filling)
{
    uint64_t stretch[USBFS_ISO_STRETCH_NUMBERS];
    *filling = (struct filling){.programme_next = feed->programme_at, .message_next = feed->message_at};
    do {
        uint32_t refusal = usbfs_iso_stretch(feed->programme.bytes, feed->programme.length, feed->message.bytes,
                                             feed->message.length, feed->is_called, capacity - filling->bytes,
                                             filling->programme_next, filling->message_next, stretch, sizeof stretch);
        if (refusal != 0)
            return refusal;
        bool is_message = stretch[USBFS_ISO_STRETCH_SOURCE] == USBFS_ISO_SOURCE_MESSAGE;
        const struct sound *sound = is_message ? &feed->message : &feed->programme;
        memcpy(buffer + filling->bytes, sound->bytes + stretch[USBFS_ISO_STRETCH_OFFSET],
               stretch[USBFS_ISO_STRETCH_LENGTH]);
        filling->bytes += stretch[USBFS_ISO_STRETCH_LENGTH];
        filling->of_message += is_message ? stretch[USBFS_ISO_STRETCH_LENGTH] : 0;
        filling->programme_next = stretch[USBFS_ISO_STRETCH_NEXT_PROGRAMME];
        filling->message_next = stretch[USBFS_ISO_STRETCH_NEXT_MESSAGE];
    } while (stretch[USBFS_ISO_STRETCH_LENGTH] > 0);
    return 0;
}

void take_filling(struct feed *feed, const struct filling *filling)
{
    feed->programme_at = filling->programme_next;
    feed->message_at = filling->message_next;
}
