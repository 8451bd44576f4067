/*
 * A stream of the library: its two pieces of memory, the opening, and the calls. No kernel takes part here: its replies
 * and its writes come from the run, and `base` is a number of the run's, not the block's address.
 */
#include "runs.h"
#include <stdlib.h>
#include <string.h>

/* Block and image before the opening. False where there is no memory for the block. */
bool begin_run(struct run *run, const struct opening *opening)
{
    *run = (struct run){.block_length = opening->block_length, .image_length = opening->image_length};
    memset(run->image, FILLED, sizeof run->image);
    run->block = malloc(run->block_length);
    if (run->block == NULL)
        return run->block_length == 0; /* (NULL, 0) is a slice too */
    memset(run->block, FILLED, run->block_length);
    return true;
}

void end_run(struct run *run)
{
    free(run->block);
    run->block = NULL;
}

void open_stream(struct run *run, const struct opening *opening)
{
    run->refusal = usbfs_iso_open(opening->slots, opening->packets_per_urb, opening->packet_bytes,
                                  (uint8_t)opening->endpoint, opening->policy, (uint8_t)opening->silence_byte,
                                  opening->base, opening->tag, opening->frame_bytes, run->block, run->block_length,
                                  run->image, run->image_length, run->out, sizeof run->out);
}

/* Kinds 0 to 3, which the program makes by itself; all take the block. */
static uint32_t program_call(struct run *run, const struct call *call)
{
    switch (call->kind) {
    case TURN:
        return usbfs_iso_turn(run->image, run->image_length, run->block, call->lent, run->out, sizeof run->out);
    case COMMIT:
        return usbfs_iso_commit(run->image, run->image_length, call->argument, run->block, call->lent, run->out,
                                sizeof run->out);
    case COMMIT_FULL:
        return usbfs_iso_commit_full(run->image, run->image_length, run->block, call->lent, run->out,
                                     sizeof run->out);
    default:
        return usbfs_iso_commit_packets(run->image, run->image_length, call->lengths,
                                        call->lengths_count * sizeof call->lengths[0], run->block, call->lent,
                                        run->out, sizeof run->out);
    }
}

/* Kinds 4 to 7, which report what the kernel replied; all take the block. */
static uint32_t kernel_call(struct run *run, const struct call *call)
{
    switch (call->kind) {
    case SUBMITTED_ACCEPTED:
        return usbfs_iso_submitted_accepted(run->image, run->image_length, run->block, call->lent, run->out,
                                            sizeof run->out);
    case SUBMITTED_ERRNO:
        return usbfs_iso_submitted_errno(run->image, run->image_length, (uint32_t)call->argument, run->block,
                                         call->lent, run->out, sizeof run->out);
    case REAPED_ERRNO:
        return usbfs_iso_reaped_errno(run->image, run->image_length, (uint32_t)call->argument, run->block,
                                      call->lent, run->out, sizeof run->out);
    default:
        return usbfs_iso_reaped_address(run->image, run->image_length, call->argument, run->block, call->lent,
                                        run->out, sizeof run->out);
    }
}

/* Kinds 8 to 11; none takes the block. */
static uint32_t control_call(struct run *run, const struct call *call)
{
    switch (call->kind) {
    case GIVE_BACK:
        return usbfs_iso_give_back(run->image, run->image_length, run->out, sizeof run->out);
    case START:
        return usbfs_iso_start(run->image, run->image_length, run->out, sizeof run->out);
    case STOP:
        return usbfs_iso_stop(run->image, run->image_length, run->list, call->argument * sizeof run->list[0],
                              run->out, sizeof run->out);
    default:
        return usbfs_iso_finish(run->image, run->image_length, run->out, sizeof run->out);
    }
}

void make_call(struct run *run, const struct call *call)
{
    if (call->kind <= COMMIT_PACKETS)
        run->refusal = program_call(run, call);
    else if (call->kind <= REAPED_ADDRESS)
        run->refusal = kernel_call(run, call);
    else
        run->refusal = control_call(run, call);
}
