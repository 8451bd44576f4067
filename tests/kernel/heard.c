/* heard WAV: which frames of the test signal (signal.c) a recording (48 kHz, stereo, s16) holds. Silent frames (0, 0)
   are left out; the others must be frames of the signal in ascending order. Prints `heard FRAMES lacking FRAMES silent
   FRAMES`: lacking are the signal's frames that are not there before the last heard one, silent the recording's silent
   frames between the first and the last heard one. Exit status 1, and where, if a frame is none of the signal's or is
   not above the one before it. */
#include <stdint.h>
#include <stdio.h>
#include <string.h>

/* Goes to the first byte of the data. The header's lengths are not believed: an unclosed recording has wrong ones. */
static int skip_header(FILE *file)
{
    char last[4] = "", byte;
    while (memcmp(last, "data", 4) != 0) {
        if (fread(&byte, 1, 1, file) != 1)
            return 0;
        memmove(last, last + 1, 3);
        last[3] = byte;
    }
    return fseek(file, 4, SEEK_CUR) == 0;
}

/* The number that a frame says, or -1 if it is no frame of the signal. */
static long number_of(int left, int right)
{
    if (left < 1 || left > 32000 || right > -1000 || right < -32000 || right % 1000 != 0)
        return -1;
    return left - 1 + 32000L * (right / -1000 - 1);
}

int main(int count, char **words)
{
    FILE *file = count == 2 ? fopen(words[1], "rb") : NULL;
    if (file == NULL || !skip_header(file))
        return puts("no recording"), 1;
    long heard = 0, last = -1, silent = 0, silent_now = 0;
    uint8_t b[4];
    for (long at = 0; fread(b, 4, 1, file) == 1; at++) {
        int left = (int16_t)(b[0] | b[1] << 8), right = (int16_t)(b[2] | b[3] << 8);
        if (left == 0 && right == 0) {
            silent_now++;
            continue;
        }
        long number = number_of(left, right);
        if (number <= last) {
            printf("frame %ld of the recording is (%d, %d), after frame %ld of the signal\n", at, left, right, last);
            return 1;
        }
        silent += heard > 0 ? silent_now : 0;
        silent_now = 0;
        heard++;
        last = number;
    }
    printf("heard %ld lacking %ld silent %ld\n", heard, last + 1 - heard, silent);
    return 0;
}
