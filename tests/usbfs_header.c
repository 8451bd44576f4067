/*
 * Holds the constants and the field types of crates/sys against the kernel's own header.
 * usbfs_constants.h is made from the Rattle source by tests/usbfs_header; no number stands here.
 */
#include <stddef.h>
#include <stdint.h>
#include <linux/usbdevice_fs.h>
#include "usbfs_constants.h"

/* The member's offset and width are those of the Rattle field. */
#define PLACED(record, member, offset, field)                                                       \
    _Static_assert(offsetof(struct record, member) == offset, #record "." #member ": offset");      \
    _Static_assert(sizeof(((struct record *)0)->member) == sizeof(field), #record "." #member ": width")

/* So is its sign. */
#define NUMBER(record, member, offset, field)                                                       \
    PLACED(record, member, offset, field);                                                          \
    _Static_assert(((__typeof__(((struct record *)0)->member))-1 < 0) == ((field)-1 < 0), #record "." #member ": sign")

NUMBER(usbdevfs_urb, type, Urb_TYPE, Urb_typ);
NUMBER(usbdevfs_urb, endpoint, Urb_ENDPOINT, Urb_endpoint);
NUMBER(usbdevfs_urb, status, Urb_STATUS, Urb_status);
NUMBER(usbdevfs_urb, flags, Urb_FLAGS, Urb_flags);
PLACED(usbdevfs_urb, buffer, Urb_BUFFER, Urb_buffer);
NUMBER(usbdevfs_urb, buffer_length, Urb_BUFFER_LENGTH, Urb_buffer_length);
NUMBER(usbdevfs_urb, actual_length, Urb_ACTUAL_LENGTH, Urb_actual_length);
NUMBER(usbdevfs_urb, start_frame, Urb_START_FRAME, Urb_start_frame);
NUMBER(usbdevfs_urb, number_of_packets, Urb_NUMBER_OF_PACKETS, Urb_number_of_packets);
NUMBER(usbdevfs_urb, error_count, Urb_ERROR_COUNT, Urb_error_count);
NUMBER(usbdevfs_urb, signr, Urb_SIGNR, Urb_signr);
PLACED(usbdevfs_urb, usercontext, Urb_USERCONTEXT, Urb_usercontext);
_Static_assert(sizeof(struct usbdevfs_urb) == Urb_SIZE, "usbdevfs_urb: size");
_Static_assert(offsetof(struct usbdevfs_urb, iso_frame_desc) == Urb_SIZE, "the descriptors follow the header");

NUMBER(usbdevfs_iso_packet_desc, length, IsoPacketDesc_LENGTH, IsoPacketDesc_length);
NUMBER(usbdevfs_iso_packet_desc, actual_length, IsoPacketDesc_ACTUAL_LENGTH, IsoPacketDesc_actual_length);
NUMBER(usbdevfs_iso_packet_desc, status, IsoPacketDesc_STATUS, IsoPacketDesc_status);
_Static_assert(sizeof(struct usbdevfs_iso_packet_desc) == IsoPacketDesc_SIZE, "usbdevfs_iso_packet_desc: size");

_Static_assert(USBDEVFS_URB_TYPE_ISO == URB_TYPE_ISO, "URB_TYPE_ISO");
_Static_assert(USBDEVFS_URB_ISO_ASAP == URB_ISO_ASAP, "URB_ISO_ASAP");
