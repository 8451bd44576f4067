/* The functions that need no stream: layout, derive, plan and stretch. A line has the arguments and what came of them. */
#include "runs.h"
#include <inttypes.h>

enum { ARGUMENTS_AT_MOST = 7 };

/* What a question asks: a function's name, how many arguments it takes and how large, how many numbers it gives. */
struct function {
    const char *name;
    unsigned arguments;
    uint64_t at_most[ARGUMENTS_AT_MOST];
    unsigned results;
};

enum { LAYOUT, DERIVE, PLAN, STRETCH, FUNCTIONS };

/* stretch's programme and message, of which it is lent the beginning: as many bytes as its first two arguments say. */
enum { SOUND_AT_MOST = 65536 };
static const uint8_t programme[SOUND_AT_MOST], message[SOUND_AT_MOST];

static const struct function functions[FUNCTIONS] = {
    {"layout", 4, {UINT64_MAX, UINT64_MAX, UINT64_MAX, UINT64_MAX}, USBFS_ISO_LAYOUT_NUMBERS},
    {"derive", 6, {UINT32_MAX, UINT8_MAX, UINT64_MAX, UINT64_MAX, UINT32_MAX, UINT64_MAX},
     USBFS_ISO_SCHEDULE_NUMBERS},
    {"plan", 7, {UINT32_MAX, UINT8_MAX, UINT16_MAX, UINT8_MAX, UINT64_MAX, UINT32_MAX, UINT64_MAX},
     USBFS_ISO_SCHEDULE_NUMBERS},
    {"stretch", 6, {SOUND_AT_MOST, SOUND_AT_MOST, UINT32_MAX, UINT64_MAX, UINT64_MAX, UINT64_MAX},
     USBFS_ISO_STRETCH_NUMBERS},
};

/* The kernel's number of a speed is signed; it is written as 32 bits. */
static int32_t speed_of(uint64_t number)
{
    return (int32_t)(uint32_t)number;
}

/* Asks the function. The results have its numbers; where it refuses they are not looked at. */
static uint32_t ask(uint64_t function, const uint64_t *a, uint64_t *results, size_t results_length)
{
    switch (function) {
    case LAYOUT:
        return usbfs_iso_layout(a[0], a[1], a[2], a[3], results, results_length);
    case DERIVE:
        return usbfs_iso_derive(speed_of(a[0]), (uint8_t)a[1], a[2], a[3], (uint32_t)a[4], a[5], results,
                                results_length);
    case STRETCH:
        return usbfs_iso_stretch(programme, a[0], message, a[1], (uint32_t)a[2], a[3], a[4], a[5], results,
                                 results_length);
    default:
        return usbfs_iso_plan(speed_of(a[0]), (uint8_t)a[1], (uint16_t)a[2], (uint8_t)a[3], a[4], (uint32_t)a[5],
                              a[6], results, results_length);
    }
}

/* Reads the function and its arguments, and prints the line. */
bool answer_question(FILE *input)
{
    uint64_t number, arguments[ARGUMENTS_AT_MOST], results[USBFS_ISO_LAYOUT_NUMBERS];
    if (!read_number(input, FUNCTIONS - 1, &number))
        return false;
    const struct function *function = &functions[number];
    for (unsigned k = 0; k < function->arguments; k++)
        if (!read_number(input, function->at_most[k], &arguments[k]))
            return false;
    uint32_t refusal = ask(number, arguments, results, function->results * sizeof results[0]);
    printf("%s", function->name);
    for (unsigned k = 0; k < function->arguments; k++)
        printf(" %" PRIu64, arguments[k]);
    printf(" =");
    if (refusal != 0)
        printf(" Refused:%" PRIu32, refusal);
    else
        for (unsigned k = 0; k < function->results; k++)
            printf(" %" PRIu64, results[k]);
    putchar('\n');
    return true;
}
