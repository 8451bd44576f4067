/*
 * Plays seeds on the simulated usbfs, each in a process of its own, and holds what the player says against what the
 * simulated loudspeaker played.
 * usage: seeds COUNT [FIRST]
 */
#include "../../examples/simulated.h"
#include "invariants.h"
#include "trial.h"
#include <inttypes.h>
#include <stdbool.h>
#include <stdio.h>
#include <stdlib.h>
#include <string.h>
#include <sys/wait.h>
#include <unistd.h>

int player_main(int count, char **arguments); /* main of examples/player.c */

enum { SECONDS = 60 };
enum ending { ALL_PLAYED, LOSSES, GONE_AWAY, STOPPED, NOT_BACK, REFUSED, ENDINGS, FAILED };
static const char *const endings[] = {"played whole", "with losses",    "loudspeaker gone",
                                      "stopped",      "no buffer back", "URB refused"};

/* What the player says in the end: how much was played of how much, in milliseconds; of the sound, of the message. */
struct said {
    enum ending ending;
    uint64_t played, all, message, all_message;
};

/* What a trial's process tells. */
struct outcome {
    enum ending ending;
    uint64_t calls, messages; /* checked; begun */
};

static uint64_t transferred, discarded;
static size_t frame_bytes; /* of the sound that is played */

static void returned(int is_discarded)
{
    *(is_discarded ? &discarded : &transferred) += simulated_account.last_returned;
}

static void checked(void)
{
    check_that(invariants.transferred == transferred, "bytes transferred = bytes played of the URBs that came back");
    check_that(invariants.out == simulated_account.out, "out = URBs that the kernel has");
    check_that(invariants.frame_bytes == frame_bytes, "the ring's frames are the sound's");
}

/* Reads a line about the message. Whether it is one. */
static bool read_message_line(const char *line, struct said *said)
{
    if (sscanf(line, "Of the message, %" SCNu64 " of %" SCNu64, &said->message, &said->all_message) == 2)
        return true;
    if (strstr(line, " milliseconds of the message were played.\n") == NULL)
        return false;
    said->message = said->all_message = strtoull(line + strlen("All "), NULL, 10);
    return true;
}

/* Reads the player's last line: what became of the sound. */
static enum ending read_last_line(const char *line, struct said *said)
{
    char reason[200] = "";
    if (sscanf(line, "All %" SCNu64 " milliseconds were played.", &said->all) == 1) {
        said->played = said->all;
        return ALL_PLAYED;
    }
    if (sscanf(line, "Not all was played: %" SCNu64 " of %" SCNu64, &said->played, &said->all) == 2)
        return LOSSES;
    if (sscanf(line, "Cut off after %" SCNu64 " of %" SCNu64 " milliseconds: %199[^\n]", &said->played, &said->all,
               reason) != 3)
        return FAILED;
    if (strcmp(reason, "the loudspeaker is gone.") == 0)
        return GONE_AWAY;
    if (strcmp(reason, "it was stopped.") == 0)
        return STOPPED;
    if (strcmp(reason, "no buffer came back.") == 0 || strcmp(reason, "the kernel kept a buffer.") == 0)
        return NOT_BACK;
    return REFUSED;
}

static struct said read_lines(FILE *lines)
{
    struct said said = {.ending = FAILED};
    char line[300], last[300] = "";
    while (fgets(line, sizeof line, lines) != NULL)
        if (!read_message_line(line, &said))
            memcpy(last, line, sizeof last);
    said.ending = read_last_line(last, &said);
    return said;
}

/*
 * The milliseconds of so many bytes of a sound of so many frames, which may have been heard more than once: of all of it
 * a begun one counts, of a part whole ones alone.
 */
static uint64_t ms_of(const struct trial *c, uint64_t frames, uint64_t bytes)
{
    uint64_t times = frames == 0 ? 0 : bytes / (frames * c->frame_bytes), rest = bytes / c->frame_bytes - times * frames;
    return times * ((frames * 1000 + c->rate - 1) / c->rate) + rest * 1000 / c->rate;
}

/* What the player says, and its exit status, are what the simulated usbfs wrote down. */
static void check_said(const struct trial *c, const struct said *said, int status, const struct stream *sent)
{
    uint64_t back = transferred + discarded, message = heard_of_message(c, sent), sound = back - message;
    uint64_t all_message = sent->messages * c->message_frames * c->frame_bytes, all = c->frames * c->frame_bytes;
    bool is_whole = sent->is_complete && sound == all && message == all_message && back == simulated_account.played;
    check_that(said->ending != FAILED, "a sentence at the end");
    check_that(back == simulated_account.played || simulated_account.out > 0, "all that was played came back");
    check_that(said->ending == NOT_BACK || simulated_account.out == 0, "no URB is left with the kernel");
    check_that(said->ending == ALL_PLAYED || !is_whole, "what was all played is said to be");
    check_that((status == 0) == is_whole, "exit status 0 exactly if all was played");
    check_that(is_whole || !is_harmless(c, false), "where nothing is lost all is played");
    check_heard(c, sent, is_whole, is_harmless(c, true));
    check_that(said->all == ms_of(c, c->frames, all), "how long the sound is");
    check_that(said->all_message == ms_of(c, c->message_frames, all_message), "how long the message is, as often as called for");
    if (c->message_frames == 0) {
        check_that((said->ending == ALL_PLAYED) == (simulated_account.played == all && back == all),
                   "the sound alone was all played exactly if the player says so");
        check_that((simulated_account.played == all && back == all) ||
                       said->played == back / c->frame_bytes * 1000 / c->rate,
                   "how much of the sound alone was played");
    }
    if (simulated_account.out > 0)
        return; /* what has been heard and is not back is not said to be played */
    check_that((said->ending == ALL_PLAYED) == (sound == all), "all was played exactly if the player says so");
    check_that(said->played == ms_of(c, c->frames, sound), "how much of it was played");
    check_that(said->message == ms_of(c, c->message_frames, message), "how much of the message was played");
}

/* Plays a trial, and checks the player's sentences and exit status. */
static struct outcome play_trial(const struct trial *c)
{
    char *arguments[] = {"player",      "--simulate",       (char *)c->script,  "--slots",      (char *)c->slots,
                         "--packets",   (char *)c->packets, (char *)c->wav,     "--message",    (char *)c->message,
                         NULL};
    FILE *lines = tmpfile();
    frame_bytes = c->frame_bytes;
    if (lines == NULL || dup2(fileno(lines), STDOUT_FILENO) < 0 || !write_wavs(c))
        return (struct outcome){.ending = FAILED};
    invariants.returned = returned;
    invariants.checked = checked;
    int status = player_main(c->message_frames == 0 ? 8 : 10, arguments);
    fflush(stdout);
    rewind(lines);
    struct said said = read_lines(lines);
    struct stream sent = sent_by_rule(c);
    check_said(c, &said, status, &sent);
    return (struct outcome){invariants.wrong == 0 ? said.ending : FAILED, invariants.calls, sent.messages};
}

/* Plays a trial in a process of its own, which may last so long and no longer. */
static struct outcome play_apart(const struct trial *c)
{
    struct outcome outcome = {.ending = FAILED};
    int told[2], status;
    if (pipe(told) != 0)
        return outcome;
    pid_t child = fork();
    if (child == 0) {
        alarm(SECONDS);
        outcome = play_trial(c);
        _exit(write(told[1], &outcome, sizeof outcome) != sizeof outcome);
    }
    close(told[1]);
    if (child < 0 || read(told[0], &outcome, sizeof outcome) != sizeof outcome)
        outcome.ending = FAILED;
    close(told[0]);
    if (child < 0 || waitpid(child, &status, 0) != child || !WIFEXITED(status) || WEXITSTATUS(status) != 0)
        outcome.ending = FAILED;
    return outcome;
}

int main(int count, char **arguments)
{
    uint64_t seeds = count > 1 ? strtoull(arguments[1], NULL, 10) : 0;
    uint64_t first = count > 2 ? strtoull(arguments[2], NULL, 10) : 1, calls = 0, messages = 0;
    unsigned long endings_seen[ENDINGS] = {0}, failed = 0, deep = 0, deep_whole = 0;
    char directory[] = "/tmp/player-seeds.XXXXXX";
    struct trial c;
    if (seeds == 0 || mkdtemp(directory) == NULL)
        return 2;
    for (uint64_t seed = first; seed < first + seeds && failed < 5; seed++) {
        choose_trial(&c, seed, directory);
        struct outcome outcome = play_apart(&c);
        calls += outcome.calls;
        messages += outcome.messages;
        deep += c.frame_bytes == 6;
        deep_whole += c.frame_bytes == 6 && outcome.ending == ALL_PLAYED;
        if (outcome.ending != FAILED) {
            endings_seen[outcome.ending]++;
            continue;
        }
        failed++;
        printf("seeds: seed %" PRIu64 " failed\n", seed);
    }
    unlink(c.wav);
    unlink(c.message);
    rmdir(directory);
    printf("seeds: %" PRIu64 " seeds, %" PRIu64 " calls, %lu failed;", seeds, calls, failed);
    for (int k = 0; k < ENDINGS; k++) {
        printf(" %s %lu%s", endings[k], endings_seen[k], k + 1 < ENDINGS ? "," : ";");
        failed += seeds >= 1000 && endings_seen[k] == 0; /* each way to end must have been met */
    }
    printf(" of 24 bits %lu, %lu of them played whole; %" PRIu64 " messages\n", deep, deep_whole, messages);
    return failed != 0 || (seeds >= 1000 && (deep_whole == 0 || messages == 0));
}
