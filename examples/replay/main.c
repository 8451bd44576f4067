/*
 * Plays stored runs through the C interface (docs/RUNS.md, section "Stored runs"): reads standard input, and prints a
 * line for each opening, call and question.
 * usage: replay [--screen]: with it, calls are shown as a counter screen shows them
 */
#include "runs.h"
#include <stdlib.h>
#include <string.h>

enum status { ALL_WELL = 0, FAILED = 1, WRONG_USE = 2 };

/* The line or row of a call, or of the opening. Without a record there are no counts for a row. */
static void show(const struct run *run, uint64_t number, enum call_kind kind, bool is_screen)
{
    if (is_screen && has_record(run, kind))
        print_row(run, kind);
    else
        print_line(run, number, kind);
}

/* The calls of a run up to its end. Where the opening was refused, only the end may come. */
static bool play_calls(FILE *input, struct run *run, bool is_screen)
{
    bool is_open = run->refusal == 0;
    struct call call;
    for (uint64_t number = 1; read_call(input, run, &call);) {
        if (call.kind == END)
            return true;
        if (!is_open)
            return false;
        if (call.kind == WRITE_IMAGE) {
            run->image_length = call.argument;
            continue;
        }
        make_call(run, &call);
        show(run, number, (enum call_kind)call.kind, is_screen);
        number++;
    }
    return false;
}

/* An opening and the calls behind it. */
static bool play_run(FILE *input, bool is_screen)
{
    struct opening opening;
    struct run run;
    if (!read_opening(input, &opening))
        return false;
    if (!begin_run(&run, &opening)) {
        fprintf(stderr, "replay: no memory for a block of %zu bytes\n", run.block_length);
        exit(FAILED);
    }
    open_stream(&run, &opening);
    show(&run, 0, OPENING, is_screen);
    bool is_good = play_calls(input, &run, is_screen);
    end_run(&run);
    return is_good;
}

/* All items of the input: runs (1) and questions (2). False at the first that is bad. */
static bool play(FILE *input, bool is_screen)
{
    uint64_t item;
    while (!is_at_end(input)) {
        if (!read_number(input, 2, &item) || item == 0)
            return false;
        if (!(item == 1 ? play_run(input, is_screen) : answer_question(input)))
            return false;
    }
    return true;
}

/* Whether all was read and all was written. */
static bool is_complete(void)
{
    bool is_written = fflush(stdout) == 0 && !ferror(stdout);
    if (ferror(stdin))
        fprintf(stderr, "replay: standard input could not be read\n");
    if (!is_written)
        fprintf(stderr, "replay: standard output could not be written\n");
    return is_written && !ferror(stdin);
}

int main(int count, char **arguments)
{
    bool is_screen = count == 2 && strcmp(arguments[1], "--screen") == 0;
    if (count != 1 && !is_screen) {
        fprintf(stderr, "usage: replay [--screen] <runs\n");
        return WRONG_USE;
    }
    if (is_screen)
        print_heading();
    bool is_good = play(stdin, is_screen);
    if (!is_good)
        puts("Bad input");
    return is_complete() && is_good ? ALL_WELL : FAILED;
}
