/* A USB loudspeaker: found by its descriptors, claimed, and reached through usbfs. */
#include "player.h"
#include <errno.h>
#include <fcntl.h>
#include <glob.h>
#include <inttypes.h>
#include <poll.h>
#include <stdio.h>
#include <stdlib.h>
#include <string.h>
#include <sys/ioctl.h>
#include <unistd.h>
#include <usbfs_iso.h>

/* Descriptor types and class codes of USB 2.0 and of its audio class. */
enum { CONFIGURATION = 2, INTERFACE = 4, ENDPOINT = 5, AUDIO_INTERFACE = 0x24 };
enum { AUDIO = 1, AUDIO_CONTROL = 1, AUDIO_STREAMING = 2, VERSION_1 = 0, FORMAT_TYPE = 2, FORMAT_TYPE_I = 1 };
enum { MOST_PLACES = 64, MOST_RATES = 32 };

/* Where an endpoint is, and which sound it takes. */
struct place {
    struct endpoint endpoint;
    int interface, alternate;
    int control; /* the audio function's control interface, or -1 */
    bool is_audio;
    unsigned channels, sample_bytes; /* 0 where the descriptors do not say, as in audio class 2 */
    unsigned rate_count;             /* 0: any rate from rates[0] to rates[1] */
    uint32_t rates[MOST_RATES];
};

struct loudspeaker {
    struct usbfs usbfs;
    struct place place;
    int fd;
    bool is_claimed[2], had_driver[2]; /* the control interface, the streaming interface */
};

/* Reads a Type I format: channels, bytes of a sample, rates. */
static void read_format(const uint8_t *at, struct place *place)
{
    place->channels = at[4];
    place->sample_bytes = at[5];
    place->rate_count = at[7] < MOST_RATES ? at[7] : MOST_RATES;
    for (unsigned k = 0; k < (at[7] == 0 ? 2 : place->rate_count) && 11 + 3 * k <= at[0]; k++)
        place->rates[k] = at[8 + 3 * k] | at[9 + 3 * k] << 8 | (uint32_t)at[10 + 3 * k] << 16;
}

/* The isochronous OUT endpoints of the first configuration, which is the only one of every common loudspeaker. */
static int find_places(const uint8_t *bytes, size_t length, int32_t speed, struct place *places)
{
    struct place here = {.control = -1};
    int count = 0, configurations = 0, protocol = 0;
    const uint8_t *end = bytes + length;
    for (const uint8_t *at = bytes; at + 2 <= end && at[0] >= 2 && at + at[0] <= end; at += at[0]) {
        if (at[1] == CONFIGURATION && ++configurations == 2)
            break;
        if (at[1] == INTERFACE && at[0] >= 9) {
            bool is_control = at[5] == AUDIO && at[6] == AUDIO_CONTROL;
            here = (struct place){.interface = at[2], .alternate = at[3], .control = is_control ? at[2] : here.control};
            here.is_audio = at[5] == AUDIO && at[6] == AUDIO_STREAMING;
            protocol = at[7];
        }
        if (at[1] == AUDIO_INTERFACE && at[0] >= 8 && at[2] == FORMAT_TYPE && at[3] == FORMAT_TYPE_I &&
            here.is_audio && protocol == VERSION_1)
            read_format(at, &here);
        if (at[1] == ENDPOINT && at[0] >= 7 && (at[3] & 3) == 1 && (at[2] & 0x80) == 0 && count < MOST_PLACES) {
            here.endpoint = (struct endpoint){speed, at[2], at[3], at[6], (uint16_t)(at[4] | at[5] << 8)};
            places[count++] = here;
        }
    }
    return count;
}

/* Opens a usbfs file and finds its endpoints. Gives the open file, or -1 with errno. */
static int open_device(const char *path, struct place *places, int *count)
{
    static uint8_t bytes[65536];
    int fd = open(path, O_RDWR | O_CLOEXEC);
    int32_t speed = fd < 0 ? -1 : ioctl(fd, USBDEVFS_GET_SPEED);
    ssize_t length = speed < 0 ? -1 : read(fd, bytes, sizeof bytes);
    *count = length < 0 ? 0 : find_places(bytes, (size_t)length, speed, places);
    if (fd >= 0 && length < 0) {
        int error = errno;
        close(fd);
        errno = error;
        fd = -1;
    }
    return fd;
}

/* One line of --list. What usbfs_iso_plan makes of the endpoint's numbers is what the player would use. */
static void print_place(const char *path, const struct place *place)
{
    static const char *const speeds[] = {"unknown", "low", "full", "high", "wireless", "super", "super plus"};
    const struct endpoint *e = &place->endpoint;
    uint64_t plan[USBFS_ISO_SCHEDULE_NUMBERS];
    int bus = atoi(path + strlen("/dev/bus/usb/")), device = atoi(strrchr(path, '/') + 1);
    printf("%d:%d  interface %d alternate %d  endpoint %d  %s speed", bus, device, place->interface, place->alternate,
           e->address, e->speed >= 0 && e->speed <= 6 ? speeds[e->speed] : speeds[0]);
    uint32_t refusal =
        usbfs_iso_plan(e->speed, e->attributes, e->max_packet_size, e->interval, 2, 0, 1, plan, sizeof plan);
    if (refusal != 0)
        printf("  unusable: refusal %" PRIu32, refusal);
    else
        printf("  every %" PRIu64 " us  %" PRIu64 " bytes", plan[USBFS_ISO_SCHEDULE_INTERVAL_US],
               plan[USBFS_ISO_SCHEDULE_PACKET_BYTES]);
    if (place->channels != 0)
        printf("  %u channels of %u bits", place->channels, 8 * place->sample_bytes);
    for (unsigned k = 0; k < place->rate_count; k++)
        printf("%s %" PRIu32, k == 0 ? "  Hz" : ",", place->rates[k]);
    putchar('\n');
}

int list_endpoints(void)
{
    struct place places[MOST_PLACES];
    glob_t paths = {0};
    int count, lines = 0;
    glob("/dev/bus/usb/*/*", 0, NULL, &paths);
    for (size_t k = 0; k < paths.gl_pathc; k++) {
        int fd = open_device(paths.gl_pathv[k], places, &count);
        if (fd < 0)
            fprintf(stderr, "player: %s: %s\n", paths.gl_pathv[k], strerror(errno));
        else
            close(fd);
        for (int place = 0; place < count; place++, lines++)
            print_place(paths.gl_pathv[k], &places[place]);
    }
    globfree(&paths);
    if (lines == 0)
        fprintf(stderr, "player: no isochronous OUT endpoint found\n");
    return lines == 0;
}

/* Whether the sound can go there. A device that was not named must say which sound it takes. */
static bool fits(const struct place *place, const struct sound *sound, bool is_named)
{
    bool has_rate = place->rate_count == 0 && place->rates[0] <= sound->rate && sound->rate <= place->rates[1];
    for (unsigned k = 0; k < place->rate_count; k++)
        has_rate |= place->rates[k] == sound->rate;
    if (!place->is_audio || place->channels == 0)
        return is_named;
    return place->channels == sound->channels && place->sample_bytes == sound->sample_bytes && has_rate;
}

/* The first endpoint that fits, of the device named or of all. Gives the open usbfs file, or -1. */
static int find(const char *device, const struct sound *sound, struct place *place)
{
    struct place places[MOST_PLACES];
    char path[64] = "/dev/bus/usb/*/*";
    unsigned bus, number;
    char rest;
    glob_t paths = {0};
    if (device != NULL && sscanf(device, "%u:%u%c", &bus, &number, &rest) != 2) {
        fprintf(stderr, "player: --device %s: not of the form BUS:DEV\n", device);
        return -1;
    }
    if (device != NULL)
        snprintf(path, sizeof path, "/dev/bus/usb/%03u/%03u", bus, number);
    glob(path, 0, NULL, &paths);
    for (size_t k = 0; k < paths.gl_pathc; k++) {
        int count, fd = open_device(paths.gl_pathv[k], places, &count);
        if (fd < 0 && device != NULL)
            fprintf(stderr, "player: %s: %s\n", paths.gl_pathv[k], strerror(errno));
        for (int at = 0; at < count; at++)
            if (fits(&places[at], sound, device != NULL)) {
                *place = places[at];
                globfree(&paths);
                return fd;
            }
        if (fd >= 0)
            close(fd);
    }
    globfree(&paths);
    fprintf(stderr, "player: no loudspeaker%s%s for %" PRIu32 " Hz, %" PRIu32 " channels of %" PRIu32
            " bits; --list shows what is there\n", device == NULL ? "" : " at ", device == NULL ? "" : device,
            sound->rate, sound->channels, 8 * sound->sample_bytes);
    return -1;
}

static struct loudspeaker *of(struct usbfs *usbfs)
{
    return (struct loudspeaker *)usbfs;
}

static int submit(struct usbfs *usbfs, struct usbdevfs_urb *urb)
{
    return ioctl(of(usbfs)->fd, USBDEVFS_SUBMITURB, urb) == 0 ? 0 : errno;
}

static int reap(struct usbfs *usbfs, struct usbdevfs_urb **urb)
{
    return ioctl(of(usbfs)->fd, USBDEVFS_REAPURBNDELAY, urb) == 0 ? 0 : errno;
}

static int discard(struct usbfs *usbfs, struct usbdevfs_urb *urb)
{
    return ioctl(of(usbfs)->fd, USBDEVFS_DISCARDURB, urb) == 0 ? 0 : errno;
}

/* Once the device is gone poll ends at once, though URBs may still be on their way back: then it is slept instead. */
static void wait_for_urb(struct usbfs *usbfs, int64_t milliseconds)
{
    struct pollfd file = {.fd = of(usbfs)->fd, .events = POLLOUT};
    if (poll(&file, 1, (int)milliseconds) > 0 && (file.revents & POLLOUT) == 0)
        sleep_ms(5);
}

static int64_t now(struct usbfs *usbfs)
{
    (void)usbfs;
    return clock_ms(CLOCK_MONOTONIC);
}

/* Takes an interface from the kernel's driver, if it has one, but from no other player, and claims it. */
static bool claim(struct loudspeaker *l, int which, int interface)
{
    struct usbdevfs_getdriver driver = {.interface = (unsigned)interface};
    struct usbdevfs_disconnect_claim wish = {
        .interface = (unsigned)interface, .flags = USBDEVFS_DISCONNECT_CLAIM_EXCEPT_DRIVER, .driver = "usbfs"};
    l->had_driver[which] = ioctl(l->fd, USBDEVFS_GETDRIVER, &driver) == 0;
    l->is_claimed[which] = ioctl(l->fd, USBDEVFS_DISCONNECT_CLAIM, &wish) == 0;
    return l->is_claimed[which];
}

/* Gives an interface back, and to the kernel's driver if it had one. A device that is gone needs none of this. */
static void give_back(struct loudspeaker *l, int which, int interface)
{
    struct usbdevfs_ioctl connect = {.ifno = interface, .ioctl_code = USBDEVFS_CONNECT};
    if (!l->is_claimed[which])
        return;
    ioctl(l->fd, USBDEVFS_RELEASEINTERFACE, &interface);
    if (l->had_driver[which])
        ioctl(l->fd, USBDEVFS_IOCTL, &connect);
}

static void close_loudspeaker(struct usbfs *usbfs)
{
    struct loudspeaker *l = of(usbfs);
    struct usbdevfs_setinterface quiet = {.interface = (unsigned)l->place.interface, .altsetting = 0};
    if (l->is_claimed[1]) {
        sleep_ms(100); /* a loudspeaker may forget at alternate setting 0 what it has not played yet */
        ioctl(l->fd, USBDEVFS_SETINTERFACE, &quiet);
    }
    give_back(l, 1, l->place.interface);
    give_back(l, 0, l->place.control);
    close(l->fd);
    free(l);
}

/* Tells a loudspeaker of several rates which one comes (audio class 1, SET_CUR of the sampling frequency). */
static bool set_rate(struct loudspeaker *l, uint32_t rate)
{
    uint8_t bytes[3] = {rate & 0xff, rate >> 8 & 0xff, rate >> 16 & 0xff};
    struct usbdevfs_ctrltransfer request = {.bRequestType = 0x22, .bRequest = 1, .wValue = 0x0100, .wLength = 3,
                                            .wIndex = l->place.endpoint.address, .timeout = 1000, .data = bytes};
    if (l->place.channels == 0 || l->place.rate_count == 1)
        return true;
    return ioctl(l->fd, USBDEVFS_CONTROL, &request) >= 0;
}

struct usbfs *open_loudspeaker(const char *device, const struct sound *sound)
{
    struct loudspeaker *l = calloc(1, sizeof *l);
    if (l == NULL || (l->fd = find(device, sound, &l->place)) < 0) {
        free(l);
        return NULL;
    }
    l->usbfs = (struct usbfs){l->place.endpoint, submit, reap, discard, wait_for_urb, now, close_loudspeaker};
    struct usbdevfs_setinterface loud = {(unsigned)l->place.interface, (unsigned)l->place.alternate};
    if ((l->place.control < 0 || claim(l, 0, l->place.control)) && claim(l, 1, l->place.interface) &&
        ioctl(l->fd, USBDEVFS_SETINTERFACE, &loud) == 0 && set_rate(l, sound->rate))
        return &l->usbfs;
    fprintf(stderr, "player: the loudspeaker could not be claimed: %s\n", strerror(errno));
    close_loudspeaker(&l->usbfs);
    return NULL;
}
