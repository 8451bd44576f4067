/* The counts of a stream: a line for people, a file for other processes, and a screen that reads that file. */
#include "player.h"
#include <errno.h>
#include <inttypes.h>
#include <stdio.h>
#include <string.h>

/* The player writes its counts four times a second, so counts that are older than this are no news. */
enum { OLD_MS = 1000, LOOK_EVERY_MS = 250, LINE_EVERY_MS = 1000 };

static void print_time(void)
{
    char text[16];
    time_t now = time(NULL);
    strftime(text, sizeof text, "%H:%M:%S", localtime(&now));
    fputs(text, stdout);
}

void print_counts_heading(void)
{
    puts("time      sent  back    played   short  errors  gaps  of the sound");
}

/* The present time and the counts, without the end of the line. */
static void print_row(const struct counts *counts)
{
    print_time();
    printf(" %5" PRIu64 " %5" PRIu64 " %9" PRIu64 " %7" PRIu64 " %7" PRIu64 " %5" PRIu64 "  %" PRIu64 " of %" PRIu64
           " ms",
           counts->sent, counts->back, counts->played, counts->short_of, counts->errors, counts->gaps,
           counts->played_ms, counts->all_ms);
    if (counts->message_all_ms > 0)
        printf(", message %" PRIu64 " of %" PRIu64 " ms", counts->message_ms, counts->message_all_ms);
}

void print_counts(const struct counts *counts)
{
    print_row(counts);
    putchar('\n');
}

/* Writes the counts beside the file and renames: who opens the file finds whole counts, the old or the new ones. */
bool write_counts(const char *path, const struct counts *counts)
{
    char beside[4096];
    int length = snprintf(beside, sizeof beside, "%s.new", path);
    FILE *file = length < (int)sizeof beside ? fopen(beside, "w") : NULL;
    if (file == NULL)
        return false;
    fprintf(file, "taken %" PRId64 "\nrunning %d\n", counts->taken, counts->is_running);
    fprintf(file, "sent %" PRIu64 "\nback %" PRIu64 "\n", counts->sent, counts->back);
    fprintf(file, "played %" PRIu64 "\nshort %" PRIu64 "\n", counts->played, counts->short_of);
    fprintf(file, "errors %" PRIu64 "\ngaps %" PRIu64 "\n", counts->errors, counts->gaps);
    fprintf(file, "played_ms %" PRIu64 "\nall_ms %" PRIu64 "\n", counts->played_ms, counts->all_ms);
    if (counts->message_all_ms > 0)
        fprintf(file, "message_ms %" PRIu64 "\nmessage_all_ms %" PRIu64 "\n", counts->message_ms,
                counts->message_all_ms);
    fprintf(file, "end\n");
    bool is_written = !ferror(file);
    return fclose(file) == 0 && is_written && rename(beside, path) == 0;
}

/* False, with errno, if there is no such file; with errno 0 if it is broken. */
static bool read_counts(const char *path, struct counts *counts)
{
    int running, is_whole = 0;
    FILE *file = fopen(path, "r");
    if (file == NULL)
        return false;
    int numbers = fscanf(file,
                         "taken %" SCNd64 " running %d sent %" SCNu64 " back %" SCNu64 " played %" SCNu64
                         " short %" SCNu64 " errors %" SCNu64 " gaps %" SCNu64 " played_ms %" SCNu64
                         " all_ms %" SCNu64,
                         &counts->taken, &running, &counts->sent, &counts->back, &counts->played, &counts->short_of,
                         &counts->errors, &counts->gaps, &counts->played_ms, &counts->all_ms);
    counts->message_ms = counts->message_all_ms = 0;
    int of_message = fscanf(file, " message_ms %" SCNu64 " message_all_ms %" SCNu64, &counts->message_ms,
                            &counts->message_all_ms);
    if (fscanf(file, " end%n", &is_whole) != 0)
        is_whole = 0;
    fclose(file);
    counts->is_running = running == 1;
    errno = 0;
    return numbers == 10 && (of_message == 0 || of_message == 2) && is_whole > 0;
}

enum news { NO_COUNTS, NO_NEWS, RUNNING, ENDED };

static void print_news(enum news news, const struct counts *counts, int64_t age, const char *why)
{
    if (news == RUNNING || news == ENDED)
        print_row(counts);
    else
        print_time();
    if (news == RUNNING)
        printf("  %" PRId64 ".%" PRId64 " s old\n", age / 1000, age % 1000 / 100);
    else if (news == ENDED)
        printf("  ended %" PRId64 " s ago\n", age / 1000);
    else if (news == NO_NEWS)
        printf("  no news for %" PRId64 " s\n", age / 1000);
    else
        printf("  no counts: %s\n", why);
}

/*
 * Shows the counts in the file each second, and at once when they turn old. Their age goes by the moment that the file
 * names and by how long it has not changed, so that a clock that is set back does not make old counts new.
 */
int show_screen(const char *path)
{
    struct counts counts = {.taken = -1};
    enum news last = NO_COUNTS;
    int64_t taken = -1, changed = 0, printed = -LINE_EVERY_MS;
    print_counts_heading();
    while (fflush(stdout) == 0 && !ferror(stdout)) {
        bool is_there = read_counts(path, &counts);
        const char *why = errno != 0 ? strerror(errno) : "the file is broken";
        int64_t now = clock_ms(CLOCK_MONOTONIC);
        if (taken != counts.taken)
            changed = now;
        taken = counts.taken;
        int64_t told = clock_ms(CLOCK_REALTIME) - taken, seen = now - changed;
        int64_t age = told > seen ? told : seen;
        enum news news = !is_there ? NO_COUNTS : !counts.is_running ? ENDED : age > OLD_MS ? NO_NEWS : RUNNING;
        if (news != last || now - printed >= LINE_EVERY_MS) {
            print_news(news, &counts, age, why);
            printed = now;
        }
        last = news;
        sleep_ms(LOOK_EVERY_MS);
    }
    return 1;
}
