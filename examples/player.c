/*
 * Plays a WAV file, or a tone, to a USB loudspeaker through Linux usbfs, and tells how much of it was really played. A
 * program to start from: the library keeps the books (include/usbfs_iso.h), the player asks the kernel and reports its
 * replies.
 *
 * The ring is filled, and each buffer that comes back is filled again. At the end of the sound, at Ctrl-C, and when the
 * cable is pulled: stop; discard what is out; reap until the library says that nothing is out; give everything back.
 * At SIGUSR1 an emergency message, if there is one, is played from the next buffer on, and then the sound goes on.
 *
 * Exit status: 0 all was played, 1 not all was played, 2 nothing was begun.
 */
#include "player.h"
#include <getopt.h>
#include <inttypes.h>
#include <signal.h>
#include <stdio.h>
#include <stdlib.h>
#include <string.h>
#include <usbfs_iso.h>

enum status { ALL_PLAYED = 0, NOT_ALL_PLAYED = 1, NOT_BEGUN = 2 };
enum { COUNTS_EVERY_MS = 250, LINE_EVERY_MS = 1000, PATIENCE_MS = 3000 };
enum { MOST_SLOTS = 256, MOST_PACKETS = 128 }; /* of a ring; of a slot */

struct options {
    bool is_list;
    const char *wav, *message, *screen, *device, *script, *counts;
    uint64_t tone_ms, slots, packets;
};

struct player {
    struct usbfs *usbfs;
    const struct sound *sound;    /* the programme */
    struct feed *feed;            /* what of it is sent next, or of the message */
    const char *counts;           /* the file for a screen, or NULL */
    uint64_t slots, packets;      /* of the ring; of each slot */
    uint64_t packet_bytes, interval_us;
    uint64_t layout[USBFS_ISO_LAYOUT_NUMBERS];
    unsigned char *block;         /* the URBs and their sound, which the kernel reads and writes */
    unsigned char *image;         /* the library's record of the stream */
    uint64_t out[USBFS_ISO_OUT_NUMBERS]; /* what the last call answered */
    struct filling filling;       /* what the slot in hand was filled with */
    uint64_t packets_sent;
    uint64_t first_packet[MOST_SLOTS]; /* of what each slot was sent with last */
    uint64_t of_message[MOST_SLOTS];   /* how many bytes of that were the message's */
    uint64_t played, message_played;   /* bytes of the programme and of the message that were really played */
    int64_t last_back;            /* when a buffer came back last */
    int64_t next_counts, next_line;
};

/* The slices that the calls are lent. */
#define IMAGE(p) (p)->image, USBFS_ISO_IMAGE_SIZE((p)->slots)
#define BLOCK(p) (p)->block, (p)->layout[USBFS_ISO_LAYOUT_TOTAL]
#define OUT(p) (p)->out, sizeof(p)->out

static volatile sig_atomic_t is_interrupted, is_message_wanted;

static void on_signal(int number)
{
    if (number == SIGUSR1)
        is_message_wanted = 1;
    else
        is_interrupted = 1;
}

/* ---- the counts ---- */

static uint64_t counter(const struct player *p, enum usbfs_iso_counter which)
{
    uint64_t value;
    memcpy(&value, p->image + USBFS_ISO_COUNTER_AT(p->slots, which), sizeof value);
    return value;
}

static uint64_t errors(const struct player *p)
{
    return counter(p, USBFS_ISO_COUNTER_PACKET_ERRORS) + counter(p, USBFS_ISO_COUNTER_URB_ERRORS);
}

static bool is_all_played(const struct player *p)
{
    return p->played == p->sound->length;
}

/* The bytes of the message, as often as it was called for. */
static uint64_t message_length(const struct player *p)
{
    return p->feed->messages * p->feed->message.length;
}

/*
 * The milliseconds that so many bytes of a sound are, which may have been sent more than once: of all of it a begun one
 * counts, of a part whole ones alone. So a figure is full exactly when all was played, and none goes back.
 */
static uint64_t ms_of(const struct sound *sound, uint64_t bytes)
{
    if (sound->length == 0)
        return 0;
    uint64_t all = (sound->length / sound->frame_bytes * 1000 + sound->rate - 1) / sound->rate;
    return bytes / sound->length * all + bytes % sound->length / sound->frame_bytes * 1000 / sound->rate;
}

/* Brings the counts to the file and to the screen, where it is time for it. */
static void report(struct player *p, bool is_running)
{
    int64_t now = p->usbfs->now(p->usbfs);
    bool is_written = true;
    struct counts counts = {
        .taken = clock_ms(CLOCK_REALTIME),
        .is_running = is_running,
        .sent = counter(p, USBFS_ISO_COUNTER_URBS_SUBMITTED),
        .back = counter(p, USBFS_ISO_COUNTER_URBS_COMPLETED),
        .played = p->played + p->message_played,
        .short_of = counter(p, USBFS_ISO_COUNTER_SHORT_BYTES),
        .errors = errors(p),
        .gaps = counter(p, USBFS_ISO_COUNTER_UNDERRUNS),
        .played_ms = ms_of(p->sound, p->played),
        .all_ms = ms_of(p->sound, p->sound->length),
        .message_ms = ms_of(&p->feed->message, p->message_played),
        .message_all_ms = ms_of(&p->feed->message, message_length(p)),
    };
    if (p->counts != NULL && (now >= p->next_counts || !is_running)) {
        p->next_counts = now + COUNTS_EVERY_MS;
        is_written = write_counts(p->counts, &counts);
    }
    if (now >= p->next_line || !is_running) {
        p->next_line = now + LINE_EVERY_MS;
        if (!is_written)
            fprintf(stderr, "player: %s could not be written\n", p->counts);
        print_counts(&counts);
    }
}

/* ---- the stream: each function gives 0, or the refusal that ends it ---- */

static uint64_t slot_of(const struct player *p, const struct usbdevfs_urb *urb)
{
    return (uint64_t)((const unsigned char *)urb - p->block) / p->layout[USBFS_ISO_LAYOUT_HEADER_STRIDE];
}

/*
 * Counts what a URB has played: of its packets without an error, as many bytes as the kernel says were sent. So a buffer
 * with nothing in it adds nothing, and one that was discarded half way, which the library does not count, adds its half.
 * The message's bytes stand before the programme's.
 */
static void count_played(struct player *p, const struct usbdevfs_urb *urb)
{
    uint64_t of_message = p->of_message[slot_of(p, urb)];
    for (int k = 0; k < urb->number_of_packets; k++) {
        uint64_t length = urb->iso_frame_desc[k].length, here = of_message < length ? of_message : length;
        uint64_t bytes = urb->iso_frame_desc[k].status == 0 ? urb->iso_frame_desc[k].actual_length : 0;
        p->message_played += bytes < here ? bytes : here;
        p->played += bytes < here ? 0 : bytes - here;
        of_message -= here;
    }
}

/* Takes every buffer that has come back, also when one says that the loudspeaker is gone. */
static uint32_t reap_all(struct player *p)
{
    uint32_t refusal, gone = 0;
    do {
        struct usbdevfs_urb *urb;
        int error = p->usbfs->reap(p->usbfs, &urb);
        if (error != 0) { /* EAGAIN: Nothing, and 0 */
            refusal = usbfs_iso_reaped_errno(IMAGE(p), (uint32_t)error, BLOCK(p), OUT(p));
            return gone != 0 ? gone : refusal;
        }
        refusal = usbfs_iso_reaped_address(IMAGE(p), (uintptr_t)urb, BLOCK(p), OUT(p));
        if (refusal == USBFS_ISO_DISCONNECTED)
            gone = refusal;
        if (refusal == USBFS_ISO_DISCONNECTED || p->out[USBFS_ISO_OUT_KIND] == USBFS_ISO_KIND_COMPLETION)
            count_played(p, urb);
        p->last_back = p->usbfs->now(p->usbfs);
    } while (refusal == 0 || refusal == USBFS_ISO_DISCONNECTED);
    return refusal;
}

/* The frames that are due by the start of a packet, counted from the first: so any rate comes out right. */
static uint64_t frames_due(const struct player *p, uint64_t packet)
{
    return packet * p->interval_us * p->sound->rate / 1000000;
}

/* The bytes that are due in so many packets from this one on. */
static uint64_t bytes_due(const struct player *p, uint64_t packet, uint64_t count)
{
    return (frames_due(p, packet + count) - frames_due(p, packet)) * p->sound->frame_bytes;
}

/* Fills the slot in hand with the sound that comes next. */
static uint32_t fill(struct player *p, uint64_t slot)
{
    unsigned char *payloads = p->block + p->layout[USBFS_ISO_LAYOUT_DATA_BASE];
    uint64_t lengths[MOST_PACKETS], left;
    uint32_t refusal = fill_from(p->feed, payloads + slot * p->layout[USBFS_ISO_LAYOUT_DATA_STRIDE],
                                 bytes_due(p, p->packets_sent, p->packets), &p->filling);
    if (refusal != 0) {
        usbfs_iso_give_back(IMAGE(p), OUT(p));
        return refusal;
    }
    left = p->filling.bytes;
    for (uint64_t k = 0; k < p->packets; k++) {
        uint64_t due = bytes_due(p, p->packets_sent + k, 1);
        lengths[k] = due < left ? due : left;
        left -= lengths[k];
    }
    return usbfs_iso_commit_packets(IMAGE(p), lengths, p->packets * sizeof lengths[0], BLOCK(p), OUT(p));
}

static struct usbdevfs_urb *urb_of(const struct player *p, uint64_t slot)
{
    return (struct usbdevfs_urb *)(p->block + slot * p->layout[USBFS_ISO_LAYOUT_HEADER_STRIDE]);
}

static uint32_t submit(struct player *p, uint64_t slot)
{
    int error = p->usbfs->submit(p->usbfs, urb_of(p, slot));
    if (error != 0)
        return usbfs_iso_submitted_errno(IMAGE(p), (uint32_t)error, BLOCK(p), OUT(p));
    p->first_packet[slot] = p->packets_sent;
    p->of_message[slot] = p->filling.of_message;
    p->packets_sent += p->packets;
    take_filling(p->feed, &p->filling);
    return usbfs_iso_submitted_accepted(IMAGE(p), BLOCK(p), OUT(p));
}

static void heed_message(struct player *p)
{
    if (is_message_wanted) {
        is_message_wanted = 0;
        call_message(p->feed);
    }
}

/* Whether there is sound to send, also of a message that was called for just now. */
static bool has_sound(struct player *p)
{
    heed_message(p);
    return !is_used_up(p->feed);
}

/* Sends buffers until all are out or the sound is used up. Under the policy Continue a turn gives a slot or Nothing. */
static uint32_t send_all(struct player *p)
{
    uint32_t refusal = 0;
    while (refusal == 0 && has_sound(p)) {
        refusal = usbfs_iso_turn(IMAGE(p), BLOCK(p), OUT(p));
        uint64_t slot = p->out[USBFS_ISO_OUT_VALUE];
        if (refusal == 0 && p->out[USBFS_ISO_OUT_KIND] == USBFS_ISO_KIND_NOTHING)
            break;
        if (refusal == 0)
            refusal = fill(p, slot);
        if (refusal == 0)
            refusal = submit(p, slot);
    }
    return refusal;
}

static const char *text_of(uint32_t refusal)
{
    static char text[200];
    usbfs_iso_refusal_text(refusal, text, sizeof text);
    return refusal == USBFS_ISO_DISCONNECTED ? "the loudspeaker is gone" : text;
}

/* Plays until the sound is used up and all is back, or until something ends it. Gives what did, or NULL. */
static const char *play(struct player *p)
{
    uint32_t refusal = usbfs_iso_start(IMAGE(p), OUT(p));
    p->last_back = p->usbfs->now(p->usbfs);
    while (refusal == 0 && !is_interrupted) {
        refusal = reap_all(p);
        if (refusal == 0)
            refusal = send_all(p);
        if (refusal == 0 && !has_sound(p) && usbfs_iso_finish(IMAGE(p), OUT(p)) == 0)
            return NULL;
        report(p, true);
        if (p->usbfs->now(p->usbfs) - p->last_back > PATIENCE_MS)
            return "no buffer came back";
        if (refusal == 0)
            p->usbfs->wait(p->usbfs, COUNTS_EVERY_MS);
    }
    return refusal == 0 ? "it was stopped" : text_of(refusal);
}

/*
 * Discards the slots of the list, what was sent last first: else what comes later would be played behind a gap. A URB
 * that is done, or whose device is gone, cannot be discarded: it comes back all the same.
 */
static void discard_all(struct player *p, uint64_t *list, uint64_t count)
{
    for (; count > 0; count--) {
        uint64_t last = 0;
        for (uint64_t k = 1; k < count; k++)
            if (p->first_packet[list[k]] > p->first_packet[list[last]])
                last = k;
        p->usbfs->discard(p->usbfs, urb_of(p, list[last]));
        list[last] = list[count - 1];
    }
}

/*
 * Stops, discards, and takes back what is out. False if the kernel keeps a buffer. Right after a buffer came back there
 * is most of a packet's time to discard the others in, so the next one is waited for.
 */
static bool end(struct player *p)
{
    uint64_t list[MOST_SLOTS];
    int64_t last = p->usbfs->now(p->usbfs) + PATIENCE_MS;
    reap_all(p);
    if (usbfs_iso_finish(IMAGE(p), OUT(p)) != 0)
        p->usbfs->wait(p->usbfs, COUNTS_EVERY_MS);
    reap_all(p);
    if (usbfs_iso_stop(IMAGE(p), list, sizeof list, OUT(p)) != 0)
        return false;
    discard_all(p, list, p->out[USBFS_ISO_OUT_VALUE]);
    for (;;) {
        reap_all(p); /* that the loudspeaker is gone is no news here */
        if (usbfs_iso_finish(IMAGE(p), OUT(p)) == 0)
            return true;
        if (p->usbfs->now(p->usbfs) > last)
            return false;
        p->usbfs->wait(p->usbfs, COUNTS_EVERY_MS);
    }
}

/* ---- from the options to the sentence ---- */

/* Plans the ring by the endpoint's numbers and the sound's frames, and opens it. */
static bool open_ring(struct player *p)
{
    const struct endpoint *e = &p->usbfs->endpoint;
    uint64_t plan[USBFS_ISO_SCHEDULE_NUMBERS];
    uint32_t refusal = usbfs_iso_plan(e->speed, e->attributes, e->max_packet_size, e->interval, p->slots, 0,
                                      p->packets, plan, sizeof plan);
    if (refusal == 0) {
        p->interval_us = plan[USBFS_ISO_SCHEDULE_INTERVAL_US];
        p->slots = plan[USBFS_ISO_SCHEDULE_URBS];
        p->packet_bytes = plan[USBFS_ISO_SCHEDULE_PACKET_BYTES];
        refusal = usbfs_iso_layout(p->slots, p->packets, p->packet_bytes, p->sound->frame_bytes, p->layout,
                                   sizeof p->layout);
    }
    if (refusal == 0) {
        p->block = aligned_alloc(p->layout[USBFS_ISO_LAYOUT_ALIGNMENT], p->layout[USBFS_ISO_LAYOUT_TOTAL]);
        p->image = malloc(USBFS_ISO_IMAGE_SIZE(p->slots));
        if (p->block == NULL || p->image == NULL)
            return fprintf(stderr, "player: no memory\n"), false;
        uint8_t silence = p->sound->sample_bytes == 1 ? 0x80 : 0;
        refusal = usbfs_iso_open(p->slots, p->packets, p->packet_bytes, e->address, USBFS_ISO_POLICY_CONTINUE, silence,
                                 (uintptr_t)p->block, 0, p->sound->frame_bytes, BLOCK(p), IMAGE(p), OUT(p));
    }
    if (refusal != 0)
        return fprintf(stderr, "player: no ring: %s\n", text_of(refusal)), false;
    uint64_t most = (p->interval_us * p->sound->rate + 999999) / 1000000 * p->sound->frame_bytes;
    if (most > p->packet_bytes)
        fprintf(stderr, "player: a packet of this sound has %" PRIu64 " bytes, and the endpoint takes %" PRIu64 "\n",
                most, p->packet_bytes);
    return most <= p->packet_bytes;
}

/* What became of the message, if it was called for; whether all of it was played. */
static bool say_of_message(const struct player *p)
{
    uint64_t all = message_length(p), all_ms = ms_of(&p->feed->message, all);
    if (p->message_played == all && all > 0)
        printf("All %" PRIu64 " milliseconds of the message were played.\n", all_ms);
    if (p->message_played != all)
        printf("Of the message, %" PRIu64 " of %" PRIu64 " milliseconds were played.\n",
               ms_of(&p->feed->message, p->message_played), all_ms);
    return p->message_played == all;
}

/* The last lines: what became of the message and, last, of the sound. Gives the exit status. */
static enum status say(const struct player *p, const char *reason)
{
    bool is_message_played = say_of_message(p);
    uint64_t all = ms_of(p->sound, p->sound->length), played = ms_of(p->sound, p->played);
    if (is_all_played(p)) {
        printf("All %" PRIu64 " milliseconds were played.\n", all);
        return is_message_played ? ALL_PLAYED : NOT_ALL_PLAYED;
    }
    if (reason == NULL)
        printf("Not all was played: %" PRIu64 " of %" PRIu64 " milliseconds, with %" PRIu64 " errors.\n", played, all,
               errors(p));
    else
        printf("Cut off after %" PRIu64 " of %" PRIu64 " milliseconds: %s.\n", played, all, reason);
    return NOT_ALL_PLAYED;
}

static enum status play_sound(const struct options *options, struct usbfs *usbfs, struct feed *feed)
{
    struct player p = {.usbfs = usbfs, .sound = &feed->programme, .feed = feed, .counts = options->counts,
                       .slots = options->slots, .packets = options->packets};
    enum status status = NOT_BEGUN;
    bool is_open = open_ring(&p);
    const char *reason = NULL;
    if (is_open) {
        print_counts_heading();
        reason = play(&p);
        if (!end(&p))
            reason = "the kernel kept a buffer";
        heed_message(&p); /* one that was called for too late is told of too: none of it was played */
        report(&p, false);
    }
    usbfs->close(usbfs); /* the kernel writes nothing into the block from here on */
    if (is_open)
        status = say(&p, reason);
    free(p.block);
    free(p.image);
    return status;
}

static enum status usage(void)
{
    fputs("usage: player [OPTIONS] FILE.wav     plays it to a USB loudspeaker\n"
          "       player [OPTIONS] --tone MS    plays a tone\n"
          "       player --list                 shows every isochronous OUT endpoint\n"
          "       player --screen FILE          shows the counts that a player keeps in FILE\n"
          "  --message FILE.wav  an emergency message: at each SIGUSR1 it is played from the next buffer on,\n"
          "                      and then the sound goes on where it was\n"
          "  --device BUS:DEV    the loudspeaker; else the first that takes the sound\n"
          "  --counts FILE       keeps the counts there for a screen\n"
          "  --slots N           buffers of the ring, 8 if not given\n"
          "  --packets N         packets of a buffer, 8 if not given\n"
          "  --simulate WHAT     a simulated loudspeaker: a script, or a number as seed\n",
          stderr);
    return NOT_BEGUN;
}

static bool read_number(const char *text, uint64_t *number)
{
    *number = strtoull(text, NULL, 10);
    return *text != '\0' && text[strspn(text, "0123456789")] == '\0';
}

/* Reads the options. False if they are wrong. */
static bool read_options(int count, char **arguments, struct options *options)
{
    static const struct option names[] = {
        {"list", no_argument, NULL, 'l'},          {"screen", required_argument, NULL, 's'},
        {"tone", required_argument, NULL, 't'},    {"device", required_argument, NULL, 'd'},
        {"counts", required_argument, NULL, 'c'},  {"slots", required_argument, NULL, 'n'},
        {"packets", required_argument, NULL, 'p'}, {"simulate", required_argument, NULL, 'x'},
        {"message", required_argument, NULL, 'm'},
        {NULL, 0, NULL, 0}};
    bool is_good = true;
    for (int name; (name = getopt_long(count, arguments, "", names, NULL)) != -1;)
        switch (name) {
        case 'l': options->is_list = true; break;
        case 's': options->screen = optarg; break;
        case 't': is_good &= read_number(optarg, &options->tone_ms); break;
        case 'd': options->device = optarg; break;
        case 'c': options->counts = optarg; break;
        case 'n': is_good &= read_number(optarg, &options->slots); break;
        case 'p': is_good &= read_number(optarg, &options->packets); break;
        case 'x': options->script = optarg; break;
        case 'm': options->message = optarg; break;
        default: is_good = false;
        }
    options->wav = arguments[optind];
    int jobs = options->is_list + (options->screen != NULL) + (options->tone_ms != 0) + (count - optind);
    return is_good && jobs == 1;
}

/*
 * Ctrl-C and its kin end the sound in good order; that nobody reads the lines does not. SIGUSR1 calls for the message; it
 * ends a wait, but no write to a file.
 */
static void heed_signals(void)
{
    struct sigaction action = {.sa_handler = on_signal};
    sigaction(SIGINT, &action, NULL);
    sigaction(SIGTERM, &action, NULL);
    sigaction(SIGHUP, &action, NULL);
    action.sa_flags = SA_RESTART;
    sigaction(SIGUSR1, &action, NULL);
    signal(SIGPIPE, SIG_IGN);
}

int main(int count, char **arguments)
{
    struct options options = {.slots = 8, .packets = 8};
    struct feed feed = {0};
    struct usbfs *usbfs = NULL;
    enum status status = NOT_BEGUN;
    setvbuf(stdout, NULL, _IOLBF, 0);
    if (!read_options(count, arguments, &options))
        return usage();
    if (options.is_list)
        return list_endpoints();
    if (options.screen != NULL)
        return show_screen(options.screen);
    heed_signals();
    if (read_feed(options.wav, options.tone_ms, options.message, &feed))
        usbfs = options.script != NULL ? open_simulated(options.script)
                                       : open_loudspeaker(options.device, &feed.programme);
    if (usbfs != NULL)
        status = play_sound(&options, usbfs, &feed);
    free(feed.programme.bytes);
    free(feed.message.bytes);
    return status;
}
