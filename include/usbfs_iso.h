/*
 * usbfs_iso.h: an isochronous USB output stream over Linux usbfs, for C and C++ on x86-64.
 *
 * The library keeps the books of a ring of buffers, called slots: which are free, being filled or with the kernel,
 * what came back, and eight counters. It makes no system call. The program makes them (USBDEVFS_SUBMITURB,
 * USBDEVFS_REAPURBNDELAY and USBDEVFS_DISCARDURB of linux/usbdevice_fs.h) and reports the kernel's replies.
 *
 * Two pieces of memory belong to the program:
 *   block  the slots' URB headers and payloads, which the kernel reads and writes. From usbfs_iso_open on it must
 *          stay where it is until usbfs_iso_finish answers Yes: until then the kernel may write into it.
 *   image  the record of the stream, as plain bytes. It may be copied, saved, moved and compared: equal records
 *          have equal images. A call goes by the image that it is lent, so lend it as the last call left it.
 *
 * One order of calls, with uint64_t out[8]; what the calls answer stands there:
 *   usbfs_iso_layout, usbfs_iso_image_size   how large block and image are; allocate them
 *   usbfs_iso_open, usbfs_iso_start          Done
 *   then, again and again:
 *     USBDEVFS_REAPURBNDELAY    report a URB by usbfs_iso_reaped_address, an errno by usbfs_iso_reaped_errno; repeat
 *                               until Nothing (EAGAIN)
 *     usbfs_iso_turn            Slot(i): write sound to slot i's payload; then usbfs_iso_commit answers Submit(i)
 *                               Submit(i): slot i holds silence
 *                               Nothing: every slot is out; wait
 *     at each Submit(i)         USBDEVFS_SUBMITURB with slot i's header; report it by usbfs_iso_submitted_accepted or
 *                               usbfs_iso_submitted_errno. Accepted answers Done or, after silence, the next Submit,
 *                               Slot or Nothing
 *   usbfs_iso_stop                           Done: USBDEVFS_DISCARDURB for each slot in its list
 *   USBDEVFS_REAPURB, usbfs_iso_reaped_address until usbfs_iso_finish answers Yes; then the block may be freed
 * Slot i's header stands at block + i * header stride, its payload at block + data base + i * data stride.
 *
 * Slices: a pointer and the length after it are one slice; the length is in bytes, and as many must stand behind the
 * pointer. (NULL, 0) is an empty slice. Slices lent to one call must not overlap. They need no alignment; the number
 * `base` alone must be a multiple of 64.
 *
 * Beyond that any numbers and any bytes may be handed over: a wrong use is refused with a number. No function keeps a
 * pointer, allocates, locks or makes a system call, and there are no global variables. So distinct images, each with a
 * block of its own, may be used from distinct threads at once; one image only by one thread at a time.
 */
#ifndef USBFS_ISO_H
#define USBFS_ISO_H

#include <stddef.h>
#include <stdint.h>

#ifdef __cplusplus
extern "C" {
#endif

/*
 * Refusals: what a function returns when that is not 0. A refusal leaves image and block as they were, but for these:
 * 10, 11, 12 and those of usbfs_iso_submitted_errno (13 to 17) return the slot in hand to the queue; 19 has counted the
 * underrun; 13 from usbfs_iso_reaped_address has returned and counted the slot. No function here gives 8, 25 or 27 to
 * 30: they are kept so that the numbers are the same in all languages. 32 is no refusal.
 */
enum usbfs_iso_refusal {
    USBFS_ISO_TOO_FEW_SLOTS = 1,           /* fewer than 2 slots */
    USBFS_ISO_ZERO_SIZE = 2,               /* no packets in a URB, or no bytes in a packet */
    USBFS_ISO_TOO_MANY_PACKETS = 3,        /* more than 128 packets in a URB */
    USBFS_ISO_LAYOUT_OVERFLOW = 4,         /* the layout does not fit 64 bits */
    USBFS_ISO_TOO_LARGE = 5,               /* more than 256 slots, or more than 49,152 bytes in a packet */
    USBFS_ISO_BLOCK_LENGTH = 6,            /* the block's length is not the layout's total */
    USBFS_ISO_BASE_ADDRESS = 7,            /* base no multiple of 64, or the block goes past the address space */
    USBFS_ISO_UNSOUND = 8,                 /* a record that breaks its rules; bytes that show one give 31 */
    USBFS_ISO_WRONG_HAND = 9,              /* the call does not fit what the program has in hand */
    USBFS_ISO_COMMIT_TOO_LONG = 10,        /* more bytes than a slot's capacity */
    USBFS_ISO_PACKET_COUNT = 11,           /* not as many lengths as packets */
    USBFS_ISO_PACKET_TOO_LONG = 12,        /* a length above the bytes of a packet */
    USBFS_ISO_DISCONNECTED = 13,           /* the device is gone; from usbfs_iso_finish: slots are still out */
    USBFS_ISO_USBFS_MEMORY = 14,           /* usbfs has no memory for the ring; value: the ring's payload bytes */
    USBFS_ISO_PERMISSION_DENIED = 15,      /* EACCES or EPERM */
    USBFS_ISO_UNSUPPORTED = 16,            /* ENOTTY */
    USBFS_ISO_IO = 17,                     /* another errno; value: that errno */
    USBFS_ISO_STRAY_NOTICE = 18,           /* the URB reaped is of a slot that is not out */
    USBFS_ISO_UNDERRUN = 19,               /* an underrun under the policy Error; value: the count of underruns */
    USBFS_ISO_LIST_TOO_SHORT = 20,         /* usbfs_iso_stop's list has fewer places than there are slots to discard */
    USBFS_ISO_UNSUPPORTED_SPEED = 21,      /* a speed other than Full, High, Super, SuperPlus */
    USBFS_ISO_INVALID_INTERVAL = 22,       /* bInterval outside 1 to 16 */
    USBFS_ISO_ZERO_PACKET_BYTES = 23,      /* no bytes in a packet */
    USBFS_ISO_ZERO_PACKETS = 24,           /* no packets in a URB */
    USBFS_ISO_PRODUCT_OVERFLOW = 25,       /* a duration or size does not fit 64 bits */
    USBFS_ISO_NOT_ISOCHRONOUS = 26,        /* the endpoint is not isochronous */
    USBFS_ISO_INTERVAL_UNKNOWN = 27,       /* the builder was given no interval */
    USBFS_ISO_PACKET_SIZE_UNKNOWN = 28,    /* the builder was given no packet size */
    USBFS_ISO_PACKET_BYTES_TOO_LARGE = 29, /* packet bytes above the endpoint's packet size */
    USBFS_ISO_INVALID_ENDPOINT = 30,       /* the endpoint is not an OUT endpoint */
    USBFS_ISO_NOT_AN_IMAGE = 31,           /* image too short or not of a sound record; policy or tag that names none */
    USBFS_ISO_FRAME_SIZE = 33,             /* no bytes in a frame, or more than in a packet */
    USBFS_ISO_POSITION_BEYOND = 34         /* a reading position beyond its buffer's end */
};

/* What a call answered: the first of the eight numbers. */
enum usbfs_iso_kind {
    USBFS_ISO_KIND_REFUSAL = 0,
    USBFS_ISO_KIND_DONE = 1,
    USBFS_ISO_KIND_NOTHING = 2,            /* no slot is free; no URB is done */
    USBFS_ISO_KIND_SLOT = 3,               /* a slot to fill is in hand */
    USBFS_ISO_KIND_SUBMIT = 4,             /* the slot in hand is to be submitted now */
    USBFS_ISO_KIND_COMPLETION = 5,         /* a URB came back and its slot is free again */
    USBFS_ISO_KIND_FOREIGN = 6,            /* the address is not that of a header of this ring */
    USBFS_ISO_KIND_YES = 7                 /* no slot is out */
};

/*
 * The eight numbers in out, 8 bytes each: the kind, the answer's own, zeros. usbfs_iso_open and every call on an image
 * write them each time, refused or not: as many whole numbers as out has room for; out's other bytes stay.
 */
enum usbfs_iso_out {
    USBFS_ISO_OUT_KIND = 0,
    USBFS_ISO_OUT_VALUE = 1,               /* Slot, Submit: the slot; stop: how many it listed; 14, 17, 19: see there */
    USBFS_ISO_OUT_STATUS = 1,              /* Completion: the URB's status; read it as int64_t */
    USBFS_ISO_OUT_ACTUAL = 2,              /* Completion: the bytes transferred, as the kernel counts them */
    USBFS_ISO_OUT_REQUESTED = 3,           /* Completion: the sum of the packets' lengths */
    USBFS_ISO_OUT_SHORT = 4,               /* Completion: how many bytes of these were not sent, packet by packet */
    USBFS_ISO_OUT_PACKET_ERRORS = 5,       /* Completion: packets with an error */
    USBFS_ISO_OUT_DISCARDED = 6,           /* Completion: 1 if stop had listed the slot, which is then not counted */
    USBFS_ISO_OUT_NUMBERS = 8
};

/* What usbfs_iso_turn does when all slots came back while the stream was running: it counts an underrun, and then */
enum usbfs_iso_policy {
    USBFS_ISO_POLICY_CONTINUE = 0,         /* gives a slot as ever */
    USBFS_ISO_POLICY_FILL_SILENCE = 1,     /* has two slots of silence submitted first */
    USBFS_ISO_POLICY_ERROR = 2             /* refuses 19 */
};

/* Bus speeds, as USBDEVFS_GET_SPEED returns them. */
enum usbfs_iso_speed {
    USBFS_ISO_SPEED_LOW = 1,
    USBFS_ISO_SPEED_FULL = 2,
    USBFS_ISO_SPEED_HIGH = 3,
    USBFS_ISO_SPEED_WIRELESS = 4,
    USBFS_ISO_SPEED_SUPER = 5,
    USBFS_ISO_SPEED_SUPER_PLUS = 6
};

/* Places of the numbers of usbfs_iso_layout. */
enum usbfs_iso_layout_place {
    USBFS_ISO_LAYOUT_HEADER_STRIDE = 0,    /* bytes from one slot's header to the next */
    USBFS_ISO_LAYOUT_DATA_BASE = 1,        /* where slot 0's payload starts in the block */
    USBFS_ISO_LAYOUT_DATA_STRIDE = 2,      /* bytes from one payload to the next */
    USBFS_ISO_LAYOUT_TOTAL = 3,            /* bytes of the block */
    USBFS_ISO_LAYOUT_ALIGNMENT = 4,        /* of the block's address: 64 */
    USBFS_ISO_LAYOUT_CAPACITY = 5,         /* bytes of sound in a slot: in each packet as many whole frames as fit */
    USBFS_ISO_LAYOUT_NUMBERS = 6
};

/* Places of the numbers of usbfs_iso_derive and usbfs_iso_plan. */
enum usbfs_iso_schedule_place {
    USBFS_ISO_SCHEDULE_INTERVAL_US = 0,    /* microseconds from one packet to the next */
    USBFS_ISO_SCHEDULE_PACKETS_PER_URB = 1,
    USBFS_ISO_SCHEDULE_URBS = 2,           /* slots to open the ring with */
    USBFS_ISO_SCHEDULE_PACKET_BYTES = 3,
    USBFS_ISO_SCHEDULE_NUMBERS = 4
};

/* Which buffer a stretch is a part of. */
enum usbfs_iso_source {
    USBFS_ISO_SOURCE_PROGRAMME = 0,
    USBFS_ISO_SOURCE_MESSAGE = 1,
    USBFS_ISO_SOURCE_NEITHER = 2           /* refused, 34 */
};

/* Places of the numbers of usbfs_iso_stretch. */
enum usbfs_iso_stretch_place {
    USBFS_ISO_STRETCH_SOURCE = 0,          /* an enum usbfs_iso_source */
    USBFS_ISO_STRETCH_OFFSET = 1,          /* where it starts in that buffer */
    USBFS_ISO_STRETCH_LENGTH = 2,          /* bytes */
    USBFS_ISO_STRETCH_NEXT_PROGRAMME = 3,  /* the next positions */
    USBFS_ISO_STRETCH_NEXT_MESSAGE = 4,
    USBFS_ISO_STRETCH_NUMBERS = 5
};

/* The counters in their order in the image. All add modulo 2^64. */
enum usbfs_iso_counter {
    USBFS_ISO_COUNTER_URBS_SUBMITTED = 0,  /* URBs that the kernel accepted */
    USBFS_ISO_COUNTER_URBS_COMPLETED = 1,  /* URBs that came back and had not been discarded */
    USBFS_ISO_COUNTER_BYTES_SUBMITTED = 2, /* of the URBs accepted */
    USBFS_ISO_COUNTER_BYTES_TRANSFERRED = 3, /* this and the next three: of the URBs completed */
    USBFS_ISO_COUNTER_SHORT_BYTES = 4,
    USBFS_ISO_COUNTER_PACKET_ERRORS = 5,
    USBFS_ISO_COUNTER_URB_ERRORS = 6,      /* those with a status other than 0 */
    USBFS_ISO_COUNTER_UNDERRUNS = 7,
    USBFS_ISO_COUNTERS = 8
};

/*
 * The image of a stream of n slots, little-endian, with no gaps:
 *   0         header, 4 bytes each: n; how many slots are in the queue; the offsets of the four parts below
 *   24        setup, 8 bytes each: usbfs_iso_open's nine numbers in their order; the hand's kind (0 Idle, 1 Held,
 *             2 Sending, 3 Silent), its slot, silent slots left; started; armed (1 or 0 each)
 *   136       states, a byte a slot: 0 Free, 1 Filling (in hand), 2 InFlight, 3 Discarding; the last two are "out"
 *   136 + n   queue of the free slots, front first: n places of 4 bytes, unused ones zero
 *   136 + 5n  the eight counters, 8 bytes each
 * The buffer may be longer than the image: its rest is neither read nor written.
 */
#define USBFS_ISO_IMAGE_SIZE(n) (200 + 5 * (n))
#define USBFS_ISO_COUNTER_AT(n, counter) (136 + 5 * (n) + 8 * (counter))

/* The bytes of the image of a stream of so many slots; 0 where no stream has so many (below 2, above 256). */
uint64_t usbfs_iso_image_size(uint64_t slots);

/*
 * Writes the six numbers of the block's layout, as many whole ones as fit. frame_bytes is the size of a frame, a sample
 * of every channel, which commit does not split over two packets; 1 where that is all one. Only the capacity goes by
 * it. Refuses 1 to 4, then 33, and then writes none.
 */
uint32_t usbfs_iso_layout(uint64_t slots, uint64_t packets_per_urb, uint64_t packet_bytes, uint64_t frame_bytes,
                          void *out, size_t out_len);

/*
 * Opens a stream: clears the block and writes its headers, writes the image. Answers Done. The block must be as long
 * as the layout's total; base is its address, (uintptr_t)block. tag is 0; or 1 where the top 8 bits of addresses are a
 * tag, which comparisons then leave out. frame_bytes is as for usbfs_iso_layout. Refuses in this order, and then writes
 * neither block nor image: 31 for a policy above 2 or a tag above 1; 1; 2; 3; 5; 33; 6; 7; 31 for a buffer shorter than
 * usbfs_iso_image_size(slots).
 */
uint32_t usbfs_iso_open(uint64_t slots, uint64_t packets_per_urb, uint64_t packet_bytes, uint8_t endpoint,
                        uint64_t policy, uint8_t silence_byte, uint64_t base, uint64_t tag, uint64_t frame_bytes,
                        void *block, size_t block_len, void *image, size_t image_len, void *out, size_t out_len);

/*
 * The calls on an image. The hand is what the program has: Idle, nothing; Held, a slot to fill; Sending or Silent, a
 * slot to submit. Each call first refuses 31; then, if it takes the block, 6 for a wrong length; then 9 if the hand is
 * not the one named here. After these nothing differs, and a reply of the kernel has not been taken.
 */

/* Idle. Answers Slot, a slot to fill; Submit, a slot of silence to submit; or Nothing. Refuses 19. */
uint32_t usbfs_iso_turn(void *image, size_t image_len, void *block, size_t block_len, void *out, size_t out_len);

/*
 * Held. These write the packets' lengths into the slot's header, and answer Submit. commit fills packet after packet
 * with as many whole frames as fit until `bytes` are used up, so that only the last packet used may end inside a frame;
 * commit_full is commit of the capacity; commit_packets takes a list with a length for each packet, 8 bytes each, a
 * ragged end not counting, and does not look at frames. Refuse 10; commit_packets instead 11, then 12.
 */
uint32_t usbfs_iso_commit(void *image, size_t image_len, uint64_t bytes, void *block, size_t block_len, void *out,
                          size_t out_len);
uint32_t usbfs_iso_commit_full(void *image, size_t image_len, void *block, size_t block_len, void *out,
                               size_t out_len);
uint32_t usbfs_iso_commit_packets(void *image, size_t image_len, const void *lengths, size_t lengths_len, void *block,
                                  size_t block_len, void *out, size_t out_len);

/*
 * Sending or Silent. The kernel took the slot: answers Done from Sending; from Silent the next Submit, Slot or Nothing.
 * Or it gave this errno: refuses 13 (ENODEV, ESHUTDOWN), 14 (ENOMEM), 15 (EACCES, EPERM), 16 (ENOTTY) or else 17.
 */
uint32_t usbfs_iso_submitted_accepted(void *image, size_t image_len, void *block, size_t block_len, void *out,
                                      size_t out_len);
uint32_t usbfs_iso_submitted_errno(void *image, size_t image_len, uint32_t error, void *block, size_t block_len,
                                   void *out, size_t out_len);

/*
 * Idle. Reaping gave this errno: answers Nothing for EAGAIN, else refuses 13, 15, 16 or 17, and nothing differs.
 * Or it gave the URB at this address: answers Completion or Foreign; refuses 18, or 13 if the URB's status is -ENODEV
 * or -ESHUTDOWN and it had not been discarded.
 */
uint32_t usbfs_iso_reaped_errno(void *image, size_t image_len, uint32_t error, const void *block, size_t block_len,
                                void *out, size_t out_len);
uint32_t usbfs_iso_reaped_address(void *image, size_t image_len, uint64_t address, const void *block,
                                  size_t block_len, void *out, size_t out_len);

/* Held. Puts the slot back into the queue, unsent. Answers Done. */
uint32_t usbfs_iso_give_back(void *image, size_t image_len, void *out, size_t out_len);

/* Idle. Begins the stream: from the next acceptance on, underruns are counted. Once begun, no effect. Answers Done. */
uint32_t usbfs_iso_start(void *image, size_t image_len, void *out, size_t out_len);

/*
 * Idle. Ends the stream: writes the numbers of the slots to discard, ascending, 8 bytes each, at the front of the list;
 * the list's other bytes stay. Answers Done with how many. Refuses 20; a place for each slot is always enough.
 */
uint32_t usbfs_iso_stop(void *image, size_t image_len, void *list, size_t list_len, void *out, size_t out_len);

/* Idle. Answers Yes if no slot is out, else refuses 13. */
uint32_t usbfs_iso_finish(void *image, size_t image_len, void *out, size_t out_len);

/*
 * These write the four numbers of a schedule, as many whole ones as fit: derive from bInterval and the bytes of a
 * packet, plan from the endpoint's bmAttributes, wMaxPacketSize and bInterval. urbs is the count wanted, of which at
 * least 2 are given, or 0 to have depth_us microseconds of sound in flight. packets_per_urb is 1 where one has no wish.
 * The interval is 2^(bInterval - 1) frames of 1000 us at Full, else units of 125 us: at most 1024 of them at Full, 8192
 * at High, 32768 at Super and SuperPlus.
 * Refuse in this order, and then write none: 26 (plan), 21, 22, 23, 24, 3.
 */
uint32_t usbfs_iso_derive(int32_t speed, uint8_t b_interval, uint64_t packet_bytes, uint64_t urbs, uint32_t depth_us,
                          uint64_t packets_per_urb, void *out, size_t out_len);
uint32_t usbfs_iso_plan(int32_t speed, uint8_t attributes, uint16_t max_packet_size, uint8_t b_interval, uint64_t urbs,
                        uint32_t depth_us, uint64_t packets_per_urb, void *out, size_t out_len);

/*
 * The next stretch of sound for a hall that has a programme and an emergency message, with a reading position in each:
 * of the message while message_flag is not 0 and the message is not used up, else of the programme; capacity bytes from
 * the position on, or all that is left if less. So a programme that is used up gives a stretch of no bytes. Writes five
 * numbers, as many whole ones as fit. Lend the buffers unchanged and the positions as the last step gave them: then the
 * stretches of each buffer, put together, are the part of it that has been passed. No byte of the buffers is looked at.
 * Refuses 34 for a position beyond its buffer's end, of either buffer, whatever the flag; it writes the numbers then
 * too: neither buffer, 0, 0, and the positions as they were given.
 */
uint32_t usbfs_iso_stretch(const void *programme, size_t programme_len, const void *message, size_t message_len,
                           uint32_t message_flag, uint64_t capacity, uint64_t programme_at, uint64_t message_at,
                           void *out, size_t out_len);

/*
 * A refusal's name, and what it means in words. As snprintf does, these write a string with its closing zero, cut to
 * text_len bytes in all, and return the length of the whole string. A number that is no refusal has "", of length 0;
 * and so has 34 as yet.
 */
uint64_t usbfs_iso_refusal_name(uint32_t number, void *text, size_t text_len);
uint64_t usbfs_iso_refusal_text(uint32_t number, void *text, size_t text_len);

#ifdef __cplusplus
}
#endif

#endif
