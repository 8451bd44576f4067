/* The sound to play: a WAV file, or a tone. */
#include "player.h"
#include <errno.h>
#include <stdio.h>
#include <stdlib.h>
#include <string.h>

enum { PCM = 1, EXTENSIBLE = 0xfffe };

/* Little-endian, as all numbers of a WAV file. */
static uint32_t number_at(const uint8_t *bytes, int size)
{
    uint32_t number = 0;
    while (size-- > 0)
        number = number << 8 | bytes[size];
    return number;
}

static bool refuse(const char *path, const char *why)
{
    fprintf(stderr, "player: %s: %s\n", path, why);
    return false;
}

/* All bytes of a file, or NULL with errno. */
static uint8_t *read_file(const char *path, size_t *length)
{
    FILE *file = fopen(path, "rb");
    uint8_t *bytes = NULL;
    size_t room = 0;
    *length = 0;
    while (file != NULL && !feof(file) && !ferror(file)) {
        if (*length == room) {
            room = 2 * room + 65536;
            uint8_t *larger = realloc(bytes, room);
            if (larger == NULL)
                break;
            bytes = larger;
        }
        *length += fread(bytes + *length, 1, room - *length, file);
    }
    if (file != NULL && feof(file)) {
        fclose(file);
        return bytes;
    }
    int error = errno;
    if (file != NULL)
        fclose(file);
    free(bytes);
    errno = error;
    return NULL;
}

/* Reads a format chunk. False if it is not PCM in whole bytes. */
static bool read_format(const uint8_t *chunk, size_t length, struct sound *sound)
{
    if (length < 16)
        return false;
    uint32_t format = number_at(chunk, 2), bits = number_at(chunk + 14, 2);
    if (format == EXTENSIBLE && length >= 26)
        format = number_at(chunk + 24, 2);
    sound->channels = number_at(chunk + 2, 2);
    sound->rate = number_at(chunk + 4, 4);
    sound->frame_bytes = number_at(chunk + 12, 2);
    sound->sample_bytes = bits / 8;
    return format == PCM && bits > 0 && bits % 8 == 0 && sound->channels > 0 && sound->rate > 0 &&
           sound->frame_bytes == sound->channels * sound->sample_bytes;
}

/*
 * Moves the sound's bytes to the front of the file's. A file that ends before its sound does is refused: played to
 * its end, a call would be cut off and look whole.
 */
static bool find_sound(const char *path, size_t length, struct sound *sound)
{
    uint8_t *file = sound->bytes;
    bool has_format = false;
    if (length < 12 || memcmp(file, "RIFF", 4) != 0 || memcmp(file + 8, "WAVE", 4) != 0)
        return refuse(path, "not a WAV file");
    for (size_t at = 12; length - at >= 8;) {
        uint8_t *chunk = file + at + 8;
        size_t size = number_at(file + at + 4, 4), there = length - at - 8;
        bool is_sound = memcmp(file + at, "data", 4) == 0;
        if (size > there)
            return refuse(path, "the file ends before its sound does");
        if (memcmp(file + at, "fmt ", 4) == 0 && !(has_format = read_format(chunk, size, sound)))
            return refuse(path, "its sound is not PCM");
        if (is_sound && (!has_format || size == 0 || size % sound->frame_bytes != 0))
            return refuse(path, "no sound in whole frames");
        if (is_sound) {
            memmove(file, chunk, size);
            sound->length = size;
            return true;
        }
        at += 8 + size + (size % 2 < there - size ? size % 2 : there - size);
    }
    return refuse(path, "no sound in it");
}

bool read_wav(const char *path, struct sound *sound)
{
    size_t length;
    sound->bytes = read_file(path, &length);
    if (sound->bytes == NULL)
        return refuse(path, strerror(errno));
    return find_sound(path, length, sound);
}

/* 440 Hz at a quarter of full volume, 48,000 stereo frames a second of 16 bits each. */
bool make_tone(uint64_t milliseconds, struct sound *sound)
{
    const double turn = 1.9966836332280566; /* 2 cos(2 pi 440 / 48000) */
    double sample = 0, before = -8192 * 0.057564026959567284; /* - sin(2 pi 440 / 48000) */
    *sound = (struct sound){.rate = 48000, .channels = 2, .sample_bytes = 2, .frame_bytes = 4};
    if (milliseconds == 0 || milliseconds > 3600000)
        return refuse("--tone", "from 1 to 3,600,000 milliseconds");
    sound->length = milliseconds * 48 * sound->frame_bytes;
    sound->bytes = malloc(sound->length);
    if (sound->bytes == NULL)
        return refuse("--tone", "no memory");
    for (size_t at = 0; at < sound->length; at += sound->frame_bytes) {
        double next = turn * sample - before;
        int value = (int)sample;
        for (int channel = 0; channel < 2; channel++) {
            sound->bytes[at + 2 * channel] = value & 0xff;
            sound->bytes[at + 2 * channel + 1] = value >> 8 & 0xff;
        }
        before = sample;
        sample = next;
    }
    return true;
}
