/*
 * Every function of the header has exactly this type, and its numbers are those that the tests use. Linking this file
 * asks the archive for each function.
 */
#include "c_model.h"
#include <usbfs_iso.h>

/* A slice that is written, and one that is read. */
#define LENT void *, size_t
#define READ const void *, size_t

uint32_t (*const open_type)(uint64_t, uint64_t, uint64_t, uint8_t, uint64_t, uint8_t, uint64_t, uint64_t, uint64_t,
                            LENT, LENT, LENT) = usbfs_iso_open;

uint32_t (*const turn_type)(LENT, LENT, LENT) = usbfs_iso_turn;
uint32_t (*const commit_type)(LENT, uint64_t, LENT, LENT) = usbfs_iso_commit;
uint32_t (*const commit_full_type)(LENT, LENT, LENT) = usbfs_iso_commit_full;
uint32_t (*const commit_packets_type)(LENT, READ, LENT, LENT) = usbfs_iso_commit_packets;
uint32_t (*const submitted_accepted_type)(LENT, LENT, LENT) = usbfs_iso_submitted_accepted;
uint32_t (*const submitted_errno_type)(LENT, uint32_t, LENT, LENT) = usbfs_iso_submitted_errno;
uint32_t (*const reaped_errno_type)(LENT, uint32_t, READ, LENT) = usbfs_iso_reaped_errno;
uint32_t (*const reaped_address_type)(LENT, uint64_t, READ, LENT) = usbfs_iso_reaped_address;
uint32_t (*const give_back_type)(LENT, LENT) = usbfs_iso_give_back;
uint32_t (*const start_type)(LENT, LENT) = usbfs_iso_start;
uint32_t (*const stop_type)(LENT, LENT, LENT) = usbfs_iso_stop;
uint32_t (*const finish_type)(LENT, LENT) = usbfs_iso_finish;

uint32_t (*const layout_type)(uint64_t, uint64_t, uint64_t, uint64_t, LENT) = usbfs_iso_layout;
uint64_t (*const image_size_type)(uint64_t) = usbfs_iso_image_size;
uint32_t (*const derive_type)(int32_t, uint8_t, uint64_t, uint64_t, uint32_t, uint64_t, LENT) = usbfs_iso_derive;
uint32_t (*const plan_type)(int32_t, uint8_t, uint16_t, uint8_t, uint64_t, uint32_t, uint64_t, LENT) = usbfs_iso_plan;
uint32_t (*const stretch_type)(READ, READ, uint32_t, uint64_t, uint64_t, uint64_t, LENT) = usbfs_iso_stretch;
uint64_t (*const refusal_name_type)(uint32_t, LENT) = usbfs_iso_refusal_name;
uint64_t (*const refusal_text_type)(uint32_t, LENT) = usbfs_iso_refusal_text;

/* The header's numbers are the model's. */
#define SAME(header, model) _Static_assert((int)(header) == (int)(model), #header)
SAME(USBFS_ISO_KIND_REFUSAL, REFUSAL);
SAME(USBFS_ISO_KIND_DONE, DONE);
SAME(USBFS_ISO_KIND_NOTHING, NOTHING);
SAME(USBFS_ISO_KIND_SLOT, SLOT);
SAME(USBFS_ISO_KIND_SUBMIT, SUBMIT);
SAME(USBFS_ISO_KIND_COMPLETION, COMPLETION);
SAME(USBFS_ISO_KIND_FOREIGN, FOREIGN);
SAME(USBFS_ISO_KIND_YES, YES);
SAME(USBFS_ISO_POLICY_CONTINUE, CONTINUE);
SAME(USBFS_ISO_POLICY_FILL_SILENCE, FILL_SILENCE);
SAME(USBFS_ISO_POLICY_ERROR, ERROR);
SAME(USBFS_ISO_COUNTER_URBS_SUBMITTED, SUBMITTED);
SAME(USBFS_ISO_COUNTER_URBS_COMPLETED, COMPLETED);
SAME(USBFS_ISO_COUNTER_BYTES_SUBMITTED, BYTES_SUBMITTED);
SAME(USBFS_ISO_COUNTER_BYTES_TRANSFERRED, TRANSFERRED);
SAME(USBFS_ISO_COUNTER_SHORT_BYTES, SHORT_BYTES);
SAME(USBFS_ISO_COUNTER_PACKET_ERRORS, PACKET_ERRORS);
SAME(USBFS_ISO_COUNTER_URB_ERRORS, URB_ERRORS);
SAME(USBFS_ISO_COUNTER_UNDERRUNS, UNDERRUNS);
SAME(USBFS_ISO_COUNTERS, COUNTERS);
SAME(USBFS_ISO_IMAGE_SIZE(4), 220);
SAME(USBFS_ISO_COUNTER_AT(4, UNDERRUNS), 212);
SAME(USBFS_ISO_NOT_AN_IMAGE, NOT_AN_IMAGE);
SAME(USBFS_ISO_FRAME_SIZE, FRAME_SIZE);
SAME(USBFS_ISO_POSITION_BEYOND, POSITION_BEYOND);
SAME(USBFS_ISO_SOURCE_PROGRAMME, 0);
SAME(USBFS_ISO_SOURCE_MESSAGE, 1);
SAME(USBFS_ISO_SOURCE_NEITHER, 2);
SAME(USBFS_ISO_STRETCH_NUMBERS, 5);
SAME(USBFS_ISO_SPEED_LOW, 1);
SAME(USBFS_ISO_SPEED_FULL, 2);
SAME(USBFS_ISO_SPEED_HIGH, 3);
SAME(USBFS_ISO_SPEED_WIRELESS, 4);
SAME(USBFS_ISO_SPEED_SUPER, 5);
SAME(USBFS_ISO_SPEED_SUPER_PLUS, 6);
