/* The rows that answer a line. */

#include "rows.h"

#include <stdarg.h>
#include <stdbool.h>
#include <stdio.h>

void say(struct rows *rows, const char *format, ...)
{
    va_list arguments;
    va_start(arguments, format);
    int written = vsnprintf(rows->text + rows->length, sizeof rows->text - rows->length, format, arguments);
    va_end(arguments);
    rows->length += (size_t)written;
}

void say_hex(struct rows *rows, const char *name, const uint8_t *bytes, size_t count)
{
    say(rows, "%s ", name);
    for (size_t at = 0; at < count; at++)
        say(rows, "%02X", (unsigned)bytes[at]);
    say(rows, "\n");
}

/* "refused N", or the given row when nothing was refused. */
void say_outcome(struct rows *rows, enum refusal refusal, const char *accepted)
{
    if (refusal == ACCEPTED)
        say(rows, "%s\n", accepted);
    else
        say(rows, "refused %d\n", (int)refusal);
}

void say_bundle(struct rows *rows, const struct bundle_answer *answer)
{
    if (!answer->ended)
        say(rows, "none\n");
    else if (answer->refusal != ACCEPTED)
        say_outcome(rows, answer->refusal, "");
    else
        say_hex(rows, "frame", answer->bundle.bytes, answer->bundle.count);
}

void say_motor(struct rows *rows, const struct motor *motor)
{
    const struct reading *reading = &motor->reading;
    say(rows, "%u %06lX ", (unsigned)motor->line, (unsigned long)motor->node_id);
    if (reading->exists)
        say(rows, "%u %u %02X\n", (unsigned)reading->pulse, (unsigned)reading->percent,
            (unsigned)reading->favourite);
    else
        say(rows, "-\n");
}

/* The header, then the DATA fields in order; a message without fields ends after DEST. */
void say_rts(struct rows *rows, const struct rts *rts)
{
    const struct header *header = &rts->header;
    say(rows, "rts %02X %d %u %u %lu %lu", (unsigned)header->message, (int)header->acknowledge,
        (unsigned)header->sender_type, (unsigned)header->receiver_type, (unsigned long)header->source,
        (unsigned long)header->destination);
    for (int at = 0; at < rts_data_count(header->message); at++)
        say(rows, " %u", (unsigned)rts->fields.data[at]);
    say(rows, "\n");
}

static void say_pulse_or_none(struct rows *rows, bool some, uint16_t pulse)
{
    if (some)
        say(rows, " %u", (unsigned)pulse);
    else
        say(rows, " -");
}

void say_board(struct rows *rows, const struct board *board)
{
    say(rows, "pulse %u target", (unsigned)board->position);
    say_pulse_or_none(rows, board->running, board->target);
    say(rows, " direction %02X source %02X cause %02X blocked %d", (unsigned)board->direction,
        (unsigned)board->source, (unsigned)board->cause, (int)board->blocked);
    say(rows, " lock %d %06lX %02X saved %d", (int)board->locked, (unsigned long)board->holder,
        (unsigned)board->priority, (int)board->saved);
    say(rows, " ips");
    for (size_t at = 0; at < FAVOURITES; at++)
        say_pulse_or_none(rows, board->favourites[at].set, board->favourites[at].pulse);
    say(rows, " groups");
    for (size_t at = 0; at < GROUPS; at++)
        say(rows, " %06lX", (unsigned long)board->groups[at]);
    say_hex(rows, " label", board->label, LABEL_LENGTH);
}
