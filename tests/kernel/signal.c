/* signal MS: writes a WAV of MS milliseconds (48 kHz, stereo, s16) to standard output. Every frame says its own number:
   left is the number mod 32,000 plus 1, right is -1,000 * (1 + number div 32,000); so no frame is silent. */
#include <stdint.h>
#include <stdio.h>
#include <stdlib.h>

static void put(uint32_t value, int bytes)
{
    for (; bytes > 0; bytes--, value >>= 8)
        putchar((int)(value & 0xff));
}

int main(int count, char **words)
{
    uint32_t frames = count == 2 ? (uint32_t)atoi(words[1]) * 48 : 0, length = frames * 4;
    if (frames == 0 || frames > 32 * 32000)
        return fputs("signal MS: 1 to 21333 milliseconds\n", stderr), 2;
    fputs("RIFF", stdout), put(36 + length, 4), fputs("WAVEfmt ", stdout), put(16, 4);
    put(1, 2), put(2, 2), put(48000, 4), put(48000 * 4, 4), put(4, 2), put(16, 2);
    fputs("data", stdout), put(length, 4);
    for (uint32_t number = 0; number < frames; number++) {
        put(number % 32000 + 1, 2);
        put(0u - 1000 * (1 + number / 32000), 2);
    }
    return fflush(stdout) == 0 && !ferror(stdout) ? 0 : 1;
}
