/* volume NODE: sets QEMU's USB loudspeaker to full volume, at which the recording holds the samples unchanged: feature
   unit 2, both channels, 0x0800. The kernel's sound driver is taken off for it, and put back. */
#include <fcntl.h>
#include <linux/usbdevice_fs.h>
#include <stdint.h>
#include <stdio.h>
#include <sys/ioctl.h>

int main(int count, char **words)
{
    int file = count == 2 ? open(words[1], O_RDWR) : -1;
    struct usbdevfs_disconnect_claim wish = {.interface = 0};
    struct usbdevfs_ioctl connect = {.ifno = 0, .ioctl_code = USBDEVFS_CONNECT};
    if (file < 0 || ioctl(file, USBDEVFS_DISCONNECT_CLAIM, &wish) != 0)
        return perror("volume"), 1;
    for (uint16_t channel = 1; channel <= 2; channel++) {
        uint8_t full[2] = {0x00, 0x08};
        struct usbdevfs_ctrltransfer set = {.bRequestType = 0x21, .bRequest = 0x01, .wValue = 0x0200 | channel,
                                            .wIndex = 0x0200, .wLength = 2, .timeout = 1000, .data = full};
        if (ioctl(file, USBDEVFS_CONTROL, &set) != 2)
            return perror("volume"), 1;
    }
    if (ioctl(file, USBDEVFS_RELEASEINTERFACE, &wish.interface) != 0 || ioctl(file, USBDEVFS_IOCTL, &connect) < 0)
        return perror("volume"), 1;
    return 0;
}
