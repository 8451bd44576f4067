/*
 * The text input: numbers, and the openings and calls that they stand for. Numbers are decimal or 0x, with spaces,
 * tabs, commas or line ends between them; `#` and the rest of its line is a comment.
 */
#include "runs.h"

static bool is_between_words(int byte)
{
    return byte == ' ' || byte == '\t' || byte == ',' || byte == '\n' || byte == '\r';
}

/* The first byte of the next word, or EOF. */
static int first_of_word(FILE *input)
{
    int byte = getc(input);
    while (byte == '#' || is_between_words(byte)) {
        if (byte == '#')
            while (byte != '\n' && byte != EOF)
                byte = getc(input);
        else
            byte = getc(input);
    }
    return byte;
}

bool is_at_end(FILE *input)
{
    int byte = first_of_word(input);
    if (byte == EOF)
        return true;
    ungetc(byte, input);
    return false;
}

/* The next byte of a word, or EOF at its end. */
static int next_of_word(FILE *input)
{
    int byte = getc(input);
    if (byte == '#' || is_between_words(byte)) {
        ungetc(byte, input);
        return EOF;
    }
    return byte;
}

/* What a digit stands for; 16 for a byte that is none. */
static unsigned digit_of(int byte)
{
    if (byte >= '0' && byte <= '9')
        return (unsigned)(byte - '0');
    if (byte >= 'a' && byte <= 'f')
        return (unsigned)(byte - 'a') + 10;
    if (byte >= 'A' && byte <= 'F')
        return (unsigned)(byte - 'A') + 10;
    return 16;
}

/* The next word, if it is a number up to the limit. */
bool read_number(FILE *input, uint64_t at_most, uint64_t *number)
{
    int byte = first_of_word(input);
    uint64_t value = digit_of(byte);
    unsigned base = 10;
    if (value >= base)
        return false;
    byte = next_of_word(input);
    if (value == 0 && byte == 'x') {
        base = 16;
        value = digit_of(next_of_word(input));
        if (value >= base)
            return false;
        byte = next_of_word(input);
    }
    for (; byte != EOF; byte = next_of_word(input)) {
        uint64_t digit = digit_of(byte);
        if (digit >= base || value > (UINT64_MAX - digit) / base)
            return false;
        value = value * base + digit;
    }
    *number = value;
    return value <= at_most;
}

/* The eleven numbers behind a run's 1. */
bool read_opening(FILE *input, struct opening *opening)
{
    return read_number(input, UINT64_MAX, &opening->slots)
           && read_number(input, UINT64_MAX, &opening->packets_per_urb)
           && read_number(input, UINT64_MAX, &opening->packet_bytes)
           && read_number(input, UINT8_MAX, &opening->endpoint)
           && read_number(input, UINT64_MAX, &opening->policy)
           && read_number(input, UINT8_MAX, &opening->silence_byte)
           && read_number(input, UINT64_MAX, &opening->base)
           && read_number(input, UINT64_MAX, &opening->tag)
           && read_number(input, UINT64_MAX, &opening->frame_bytes)
           && read_number(input, BLOCK_AT_MOST, &opening->block_length)
           && read_number(input, IMAGE_BUFFER, &opening->image_length);
}

static uint64_t argument_at_most(uint64_t kind)
{
    switch (kind) {
    case SUBMITTED_ERRNO:
    case REAPED_ERRNO:
        return UINT32_MAX;
    case STOP:
        return LIST_AT_MOST;
    case WRITE_IMAGE:
        return IMAGE_BUFFER;
    default:
        return UINT64_MAX;
    }
}

/* Reads writes and makes them: 4 bytes each, low byte first. */
static bool read_writes(FILE *input, uint64_t count, uint8_t *bytes, size_t length)
{
    for (; count > 0; count--) {
        uint64_t offset, value;
        if (length < 4 || !read_number(input, length - 4, &offset) || !read_number(input, UINT32_MAX, &value))
            return false;
        for (unsigned k = 0; k < 4; k++)
            bytes[offset + k] = (uint8_t)(value >> (8 * k));
    }
    return true;
}

/* The next call of a run, or its end. The call's writes are made. */
bool read_call(FILE *input, struct run *run, struct call *call)
{
    if (!read_number(input, WRITE_IMAGE, &call->kind))
        return false;
    if (call->kind == END)
        return true;
    if (!read_number(input, argument_at_most(call->kind), &call->argument)
        || !read_number(input, run->block_length, &call->lent) || !read_number(input, UINT64_MAX, &call->writes)
        || !read_number(input, LIST_AT_MOST, &call->lengths_count))
        return false;
    bool is_read = call->kind == WRITE_IMAGE ? read_writes(input, call->writes, run->image, IMAGE_BUFFER)
                                             : read_writes(input, call->writes, run->block, run->block_length);
    for (uint64_t k = 0; is_read && k < call->lengths_count; k++)
        is_read = read_number(input, UINT64_MAX, &call->lengths[k]);
    return is_read;
}
