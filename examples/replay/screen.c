/*
 * A counter screen: a row for each call, in columns, in words that a clerk reads. A slot is called a buffer here, a
 * reaped URB is a buffer that came back, an underrun is a gap.
 */
#include "runs.h"
#include <inttypes.h>

enum { QUEUE_LENGTH_AT = 4 };

void print_heading(void)
{
    printf("%52s--------- buffers ----------    ------ bytes ------- ---- errors ---\n", "");
    printf("%-16s%-32s%8s%8s%8s%8s%8s%8s%8s%8s%8s%8s\n", "call", "answer", "out", "free", "sent", "back", "sent",
           "played", "short", "packets", "buffers", "gaps");
}

static const char *call_name(enum call_kind kind)
{
    static const char *const names[] = {"turn",   "commit", "commit_full", "commit_packets", "submitted", "submitted",
                                        "reaped", "reaped", "give_back",   "start",          "stop",      "finish"};
    return kind == OPENING ? "open" : names[kind];
}

/* Refusals by their numbers; 13 in words, since a clerk acts on it. finish gives it while a buffer is out. */
static void refusal_text(char *text, size_t size, uint32_t refusal, enum call_kind kind)
{
    if (refusal != USBFS_ISO_DISCONNECTED)
        snprintf(text, size, "refused %" PRIu32, refusal);
    else
        snprintf(text, size, "refused 13: %s", kind == FINISH ? "buffers are out" : "device gone");
}

/* A buffer that came back: discarded, whole, or cut short. */
static void completion_text(char *text, size_t size, const uint64_t *out)
{
    if (out[USBFS_ISO_OUT_DISCARDED] != 0)
        snprintf(text, size, "back, discarded");
    else if (out[USBFS_ISO_OUT_SHORT] == 0)
        snprintf(text, size, "back, all played");
    else
        snprintf(text, size, "back, %" PRIu64 " bytes not played", out[USBFS_ISO_OUT_SHORT]);
}

static void answer_text(char *text, size_t size, const struct run *run, enum call_kind kind)
{
    uint64_t value = run->out[USBFS_ISO_OUT_VALUE];
    switch (run->out[USBFS_ISO_OUT_KIND]) {
    case USBFS_ISO_KIND_DONE:
        if (kind == STOP)
            snprintf(text, size, "done, buffers to discard: %" PRIu64, value);
        else
            snprintf(text, size, "done");
        break;
    case USBFS_ISO_KIND_NOTHING:
        snprintf(text, size, "nothing");
        break;
    case USBFS_ISO_KIND_SLOT:
        snprintf(text, size, "fill buffer %" PRIu64, value);
        break;
    case USBFS_ISO_KIND_SUBMIT:
        snprintf(text, size, "submit buffer %" PRIu64, value);
        break;
    case USBFS_ISO_KIND_COMPLETION:
        completion_text(text, size, run->out);
        break;
    case USBFS_ISO_KIND_FOREIGN:
        snprintf(text, size, "foreign");
        break;
    case USBFS_ISO_KIND_YES:
        snprintf(text, size, "yes");
        break;
    }
}

/* The row of a call, or of an opening that was not refused. */
void print_row(const struct run *run, enum call_kind kind)
{
    char text[64] = "";
    uint64_t slots = number_at(run->image, 4);
    if (run->refusal != 0)
        refusal_text(text, sizeof text, run->refusal, kind);
    else
        answer_text(text, sizeof text, run, kind);
    printf("%-16s%-32s%8" PRIu64 "%8" PRIu64, call_name(kind), text, out_count(run->image),
           number_at(run->image + QUEUE_LENGTH_AT, 4));
    for (uint64_t k = 0; k < USBFS_ISO_COUNTERS; k++)
        printf("%8" PRIu64, number_at(run->image + USBFS_ISO_COUNTER_AT(slots, k), 8));
    putchar('\n');
}
