/*
 * The proved code beside C: both go through the same workloads in one process,
 * round by round, and have to give the same numbers, and the same records of a
 * register.  Where document 01 asks for a check of the whole state at every
 * call, rows 19 and 33, there is C that checks it and C that does not, which is
 * the second program's own.
 *
 *   beside                      for each row its title, what one pass goes
 *                               through, and the ratios of the medians to C that
 *                               checks, if any, and to C that does not: over 1,
 *                               the proved code is the slower
 *   beside answers              the same numbers and records, once through each
 *                               row, untimed, of boards that row 33 refuses, and
 *                               of every pulse of some travels
 *   beside ROW SIDE TIMES       one side of one row alone, so many times, for
 *                               whoever counts its instructions
 *
 * tests/speed builds and runs it.
 */

#define _POSIX_C_SOURCE 200809L
#include <stdio.h>
#include <stdlib.h>
#include <string.h>
#include <time.h>

#include "proved.h"

/* The second program's files, in one unit, so that calls from one to another can be inlined. */
#include "second/frame.c"
#include "second/rts.c"
#include "second/reader.c"
#include "second/travel.c"
#include "second/plate.c"
#include "second/board.c"
#include "second/messages.c"
#include "second/register.c"
#include "second/form.c"
#include "second/words.c"
#include "second/script_line.c"
#include "second/script_frame.c"
#include "second/script_rts.c"
#include "second/script_board.c"
#include "second/script_register.c"

#include "checked_register.c"

enum side { PROVED, UNCHECKED, CHECKED, SIDES };

static const char *const side_names[SIDES] = {"proved", "unchecked", "checked"};

static struct script script;

static bool are_same(const char *title, enum side side, uint64_t proved, uint64_t other)
{
    if (proved != other)
        fprintf(stderr, "%s: the proved code gives %llu, %s C %llu\n", title, (unsigned long long)proved,
                side_names[side], (unsigned long long)other);
    return proved == other;
}

/* A frame's bundle, of which one in a hundred has its last byte changed; gives its length. */
static uint8_t put_bundle(uint8_t *bytes, struct loose_bundle bundle)
{
    if (chance(&script, 1))
        bundle.bytes[bundle.count - 1] ^= 1;
    memcpy(bytes, bundle.bytes, bundle.count);
    return (uint8_t)bundle.count;
}

#include "beside_frames.c"
#include "beside_messages.c"
#include "beside_register.c"

/* ------------------------------------------------------------------------
 * Rows
 * ------------------------------------------------------------------------ */

struct row {
    const char *title;
    void (*prepare)(uint32_t motors);
    uint32_t motors; /* 0: not of the register */
    uint64_t (*pass)(enum side side);
    size_t things; /* that one pass goes through */
    bool has_checked;
};

static const struct row rows[] = {
    {"bytes through the reader's run", requests_to_board, 0, over_bytes, 0, false},
    {"bundles read and written", requests_to_board, 0, over_bundles, SLOTS, false},
    {"transmitter's messages read and written", transmitter_messages, 0, over_messages, SLOTS, false},
    {"board turns over a mix of messages", requests_to_board, 0, over_turns, SLOTS, true},
    {"position reports, each at another pulse", position_requests, 0, over_turns, SLOTS, true},
    {"register filings, 10 motors held", filings, 10, over_calls, CALLS, true},
    {"register filings, 100 motors held", filings, 100, over_calls, CALLS, true},
    {"register filings, 256 motors held", filings, 256, over_calls, CALLS, true},
    {"strike outs and filings in turn, 10 motors held", strike_outs, 10, over_calls, CALLS, true},
    {"strike outs and filings in turn, 100 motors held", strike_outs, 100, over_calls, CALLS, true},
    {"strike outs and filings in turn, 256 motors held", strike_outs, 256, over_calls, CALLS, true},
    {"forms read, 10 motors", stored_forms, 10, over_readings, FORM_CALLS, true},
    {"forms read, 100 motors", stored_forms, 100, over_readings, FORM_CALLS, true},
    {"forms read, 256 motors", stored_forms, 256, over_readings, FORM_CALLS, true},
    {"forms written, 10 motors", stored_forms, 10, over_writings, FORM_CALLS, true},
    {"forms written, 100 motors", stored_forms, 100, over_writings, FORM_CALLS, true},
    {"forms written, 256 motors", stored_forms, 256, over_writings, FORM_CALLS, true},
};

enum { ROWS = sizeof rows / sizeof rows[0], ROUNDS = 31 };

static void prepare(const struct row *row)
{
    script = (struct script){.chance = 1};
    clear_buffers();
    row->prepare(row->motors);
}

static bool has_side(const struct row *row, enum side side)
{
    return side != CHECKED || row->has_checked;
}

/* ------------------------------------------------------------------------
 * Rounds
 * ------------------------------------------------------------------------ */

static double now(void)
{
    struct timespec time;
    clock_gettime(CLOCK_MONOTONIC, &time);
    return (double)time.tv_sec + (double)time.tv_nsec / 1e9;
}

/* Every side of a row, once, and what each took. */
static bool same_answers(const struct row *row, double *taken)
{
    uint64_t given[SIDES];
    for (enum side side = 0; side < SIDES; side++) {
        if (!has_side(row, side))
            continue;
        double start = now();
        given[side] = row->pass(side);
        taken[side] = now() - start;
        if (!are_same(row->title, side, given[PROVED], given[side]))
            return false;
    }
    return row->motors == 0 || same_records(row->title);
}

static int by_size(const void *one, const void *other)
{
    double difference = *(const double *)one - *(const double *)other;
    return (difference > 0) - (difference < 0);
}

static double median(double (*taken)[SIDES], enum side side)
{
    double values[ROUNDS];
    for (size_t round = 0; round < ROUNDS; round++)
        values[round] = taken[round][side];
    qsort(values, ROUNDS, sizeof *values, by_size);
    return values[ROUNDS / 2];
}

static bool compare(const struct row *row)
{
    double taken[ROUNDS][SIDES];
    prepare(row);
    for (size_t round = 0; round < ROUNDS; round++)
        if (!same_answers(row, taken[round]))
            return false;
    printf("%s|%zu|", row->title, row->things > 0 ? row->things : work.count);
    if (row->has_checked)
        printf("%.2f|", median(taken, PROVED) / median(taken, CHECKED));
    else
        printf("-|");
    printf("%.2f\n", median(taken, PROVED) / median(taken, UNCHECKED));
    return true;
}

static bool compare_answers(const struct row *row)
{
    double taken[SIDES];
    prepare(row);
    return same_answers(row, taken);
}

static bool read_side(const char *name, enum side *side)
{
    for (*side = 0; *side < SIDES; ++*side)
        if (strcmp(name, side_names[*side]) == 0)
            return true;
    return false;
}

int main(int count, char **arguments)
{
    uint32_t row, times;
    enum side side;
    if (count == 4 && read_argument(arguments[1], &row) && row < ROWS && read_side(arguments[2], &side)
        && has_side(&rows[row], side) && read_argument(arguments[3], &times)) {
        prepare(&rows[row]);
        while (times-- > 0)
            rows[row].pass(side);
        return 0;
    }
    bool answers = count == 2 && strcmp(arguments[1], "answers") == 0;
    for (size_t at = 0; at < ROWS; at++)
        if (!(answers ? compare_answers(&rows[at]) : compare(&rows[at])))
            return 1;
    return answers && !(same_refusals() && same_percents()) ? 1 : 0;
}
