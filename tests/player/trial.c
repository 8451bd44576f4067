/* What a seed has the player play: a sound, maybe a message, and a ring of any shape. */
#include "trial.h"
#include "../../examples/simulated.h"
#include "../c_bytes.h"
#include <inttypes.h>
#include <stdio.h>
#include <string.h>

enum { WAV_HEADER = 44 };

void put_frame(const struct trial *c, uint8_t *at, size_t number)
{
    put_number(at, (unsigned)c->frame_bytes, number * 2654435761u + 1); /* odd factor: no two of 2^32 are the same */
}

static bool write_wav(const struct trial *c, const char *path, size_t first, size_t frames)
{
    uint8_t header[WAV_HEADER] = "RIFF....WAVEfmt ", frame[MOST_FRAME_BYTES];
    FILE *file = fopen(path, "wb");
    if (file == NULL)
        return false;
    put_number(header + 4, 4, 36 + c->frame_bytes * frames);
    put_number(header + 16, 4, 16);
    put_number(header + 20, 2, 1);
    put_number(header + 22, 2, 2);
    put_number(header + 24, 4, c->rate);
    put_number(header + 28, 4, c->rate * c->frame_bytes);
    put_number(header + 32, 2, c->frame_bytes);
    put_number(header + 34, 2, c->frame_bytes / 2 * 8);
    memcpy(header + 36, "data", 4);
    put_number(header + 40, 4, c->frame_bytes * frames);
    fwrite(header, 1, sizeof header, file);
    for (size_t k = 0; k < frames; k++) {
        put_frame(c, frame, first + k);
        fwrite(frame, 1, c->frame_bytes, file);
    }
    return fclose(file) == 0;
}

bool write_wavs(const struct trial *c)
{
    return write_wav(c, c->wav, 0, c->frames) &&
           (c->message_frames == 0 || write_wav(c, c->message, MESSAGE_FRAME, c->message_frames));
}

/*
 * Up to two and a half seconds of sound, of any length in frames; at every second seed up to half a second of a message;
 * a ring of any shape. 24 bits fit at up to 32 kHz.
 */
void choose_trial(struct trial *c, uint64_t seed, const char *directory)
{
    static const uint32_t rates[] = {48000, 48000, 48000, 44100, 32000, 11025, 8000};
    uint64_t random = seed + 77;
    for (int k = 0; k < 8; k++)
        next_random(&random);
    c->seed = seed;
    c->rate = rates[next_random(&random) % 7];
    c->frames = 1 + next_random(&random) % (c->rate * 5 / 2);
    if (next_random(&random) % 2 == 0)
        c->frames = (c->frames / (c->rate / 100) + 1) * (c->rate / 100); /* whole hundredths */
    bool is_shop = next_random(&random) % 2 == 0;
    c->packets_in_slot = is_shop ? 8 : 1 + next_random(&random) % 20;
    snprintf(c->slots, sizeof c->slots, "%d", is_shop ? 8 : 2 + (int)(next_random(&random) % 14));
    snprintf(c->packets, sizeof c->packets, "%d", (int)c->packets_in_slot);
    c->frame_bytes = c->rate <= 32000 && next_random(&random) % 2 == 0 ? 6 : 4;
    c->message_frames = next_random(&random) % 2 == 0 ? 1 + next_random(&random) % (c->rate / 2) : 0;
    snprintf(c->script, sizeof c->script, "%" PRIu64, seed);
    snprintf(c->wav, sizeof c->wav, "%s/sound.wav", directory);
    snprintf(c->message, sizeof c->message, "%s/message.wav", directory);
}

bool is_harmless(const struct trial *c, bool with_interrupts)
{
    struct events events;
    bool is_harmless = read_events(c->script, &events);
    for (int k = 0; k < events.count; k++) {
        struct event event = events.list[k];
        is_harmless &= event.kind == SHUFFLE || event.kind == MESSAGE || (event.kind == LATE && event.number < 1000) ||
                       (event.kind == INTERRUPT && with_interrupts);
    }
    return is_harmless;
}
