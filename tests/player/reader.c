/*
 * Opens a counts file in a tight loop until it says that the stream has ended. Every time it must be whole, its counts
 * must fit each other, and none may go back.
 * usage: reader FILE
 */
#include <inttypes.h>
#include <stdio.h>
#include <string.h>

enum { NUMBERS = 12, OF_THE_SOUND = 10 };
enum place { TAKEN, RUNNING, SENT, BACK, PLAYED, SHORT, ERRORS, GAPS, PLAYED_MS, ALL_MS, MESSAGE_MS, MESSAGE_ALL_MS };
static const char *const names[NUMBERS] = {"taken",  "running", "sent",      "back",   "played",     "short",
                                           "errors", "gaps",    "played_ms", "all_ms", "message_ms", "message_all_ms"};

/* Reads the lines in their order, those of the message if they are there, and nothing behind "end". */
static int read_counts(FILE *file, uint64_t *numbers)
{
    char name[20], end[8] = "";
    numbers[MESSAGE_MS] = numbers[MESSAGE_ALL_MS] = 0;
    for (int k = 0; k < NUMBERS; k++) {
        if (fscanf(file, "%19s", name) != 1)
            return 0;
        if (k == OF_THE_SOUND && strcmp(name, "end") == 0)
            return fread(end, 1, sizeof end, file) == 1 && end[0] == '\n';
        if (fscanf(file, "%" SCNu64, &numbers[k]) != 1 || strcmp(name, names[k]) != 0)
            return 0;
    }
    return fread(end, 1, sizeof end, file) == 5 && memcmp(end, "\nend\n", 5) == 0;
}

static int fit(const uint64_t *now, const uint64_t *before)
{
    int fit = now[RUNNING] <= 1 && now[BACK] <= now[SENT] && now[PLAYED_MS] <= now[ALL_MS] &&
              now[MESSAGE_MS] <= now[MESSAGE_ALL_MS];
    for (int k = 0; k < NUMBERS; k++)
        fit &= k == RUNNING || now[k] >= before[k];
    return fit;
}

int main(int count, char **arguments)
{
    uint64_t numbers[NUMBERS], before[NUMBERS] = {0};
    unsigned long reads = 0, changes = 0;
    for (int is_running = 1; count == 2 && is_running;) {
        FILE *file = fopen(arguments[1], "r");
        if (file == NULL && reads == 0)
            continue; /* the player has not begun */
        reads++;
        int is_whole = file != NULL && read_counts(file, numbers);
        if (!is_whole || !fit(numbers, before)) {
            printf("reader: read %lu is %s\n", reads, file == NULL ? "no file" : is_whole ? "unfit" : "broken");
            return 1;
        }
        fclose(file);
        changes += memcmp(numbers, before, sizeof numbers) != 0;
        memcpy(before, numbers, sizeof before);
        is_running = (int)numbers[RUNNING];
    }
    printf("reader: the counts file was read %lu times, with %lu changes, and was always whole\n", reads, changes);
    return changes < 100;
}
