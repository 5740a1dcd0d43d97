/* The console: commands, and lines over standard input and output. */

#include "console.h"

#include <stdio.h>

#include "form.h"
#include "frame.h"
#include "messages.h"
#include "refusal.h"
#include "rts.h"
#include "words.h"

/* ------------------------------------------------------------------------
 * Commands
 * ------------------------------------------------------------------------ */

/* Each takes the words behind its name, an empty one behind the last; false when they are malformed. */
typedef bool command(struct console *console, const struct word *words, struct rows *rows);

/* Before a successful "node" the commands of the board write "no node". */
static bool no_board(const struct console *console, struct rows *rows)
{
    if (!console->has_board)
        say(rows, "no node\n");
    return !console->has_board;
}

/* Sets up a board by the first three words, with the plate given. */
static bool set_up_with(struct console *console, const struct word *words, const struct plate *plate,
                        struct rows *rows)
{
    uint32_t node_id;
    uint8_t type;
    uint16_t travel;
    if (!read_id(&words[0], &node_id) || !read_u8(&words[1], &type) || !read_u16(&words[2], &travel))
        return false;
    enum refusal refusal = set_up_board(&console->board, node_id, type, travel, plate);
    console->has_board = console->has_board || refusal == ACCEPTED;
    say_outcome(rows, refusal, "ready");
    return true;
}

static bool node_command(struct console *console, const struct word *words, struct rows *rows)
{
    return set_up_with(console, words, &plain_plate, rows);
}

static bool read_plate(const struct word *words, struct plate *plate)
{
    return read_u32(&words[0], &plate->reference) && read_byte(&words[1], &plate->letter)
        && read_byte(&words[2], &plate->number)
        && read_exactly(&words[3], plate->characters, PLATE_CHARACTERS);
}

/* "node" with four more words, which name the plate. */
static bool node_with_plate_command(struct console *console, const struct word *words, struct rows *rows)
{
    struct plate plate;
    return read_plate(words + 3, &plate) && set_up_with(console, words, &plate, rows);
}

static bool frame_command(struct console *console, const struct word *words, struct rows *rows)
{
    struct bytes bundle;
    if (!read_hex(&words[0], &bundle))
        return false;
    if (no_board(console, rows))
        return true;
    struct wire sent;
    enum refusal refusal = bundle_to_board(&console->board, bundle.bytes, bundle.count, &sent);
    if (sent.count > 0)
        say_hex(rows, "reply", sent.bytes, sent.count);
    else
        say_outcome(rows, refusal, "silent");
    return true;
}

static bool pulse_command(struct console *console, const struct word *words, struct rows *rows)
{
    uint16_t pulse;
    if (!read_u16(&words[0], &pulse))
        return false;
    if (!no_board(console, rows))
        say_outcome(rows, at_pulse(&console->board, pulse), "done");
    return true;
}

static bool blocked_command(struct console *console, const struct word *words, struct rows *rows)
{
    uint8_t cause;
    if (!read_byte(&words[0], &cause))
        return false;
    if (!no_board(console, rows))
        say_outcome(rows, blocked_by(&console->board, cause), "done");
    return true;
}

static bool cleared_command(struct console *console, const struct word *words, struct rows *rows)
{
    (void)words;
    if (no_board(console, rows))
        return true;
    console->board.blocked = false;
    say(rows, "done\n");
    return true;
}

static bool power_command(struct console *console, const struct word *words, struct rows *rows)
{
    (void)words;
    if (no_board(console, rows))
        return true;
    power_up(&console->board);
    say(rows, "done\n");
    return true;
}

static bool state_command(struct console *console, const struct word *words, struct rows *rows)
{
    (void)words;
    if (!no_board(console, rows))
        say_board(rows, &console->board);
    return true;
}

static bool line_command(struct console *console, const struct word *words, struct rows *rows)
{
    uint8_t line;
    struct bytes bundle;
    if (!read_u8(&words[0], &line) || !read_hex(&words[1], &bundle))
        return false;
    say_outcome(rows, bundle_to_register(&console->held, line, bundle.bytes, bundle.count), "done");
    return true;
}

static bool strike_command(struct console *console, const struct word *words, struct rows *rows)
{
    uint8_t line;
    uint32_t node_id;
    if (!read_u8(&words[0], &line) || !read_id(&words[1], &node_id))
        return false;
    say_outcome(rows, strike_out(&console->held, line, node_id), "done");
    return true;
}

static bool motors_command(struct console *console, const struct word *words, struct rows *rows)
{
    (void)words;
    say(rows, "motors %zu\n", console->held.count);
    for (size_t at = 0; at < console->held.count; at++)
        say_motor(rows, &console->held.motors[at]);
    return true;
}

static bool store_command(struct console *console, const struct word *words, struct rows *rows)
{
    (void)words;
    struct form form;
    write_form(&console->held, &form);
    say_hex(rows, "form", form.bytes, form.length);
    return true;
}

static bool load_command(struct console *console, const struct word *words, struct rows *rows)
{
    struct bytes form;
    if (!read_hex(&words[0], &form))
        return false;
    say_outcome(rows, read_form(form.bytes, form.count, &console->held), "done");
    return true;
}

static bool byte_command(struct console *console, const struct word *words, struct rows *rows)
{
    uint8_t byte;
    uint16_t silence;
    if (!read_byte(&words[0], &byte) || !read_u16(&words[1], &silence))
        return false;
    struct bundle_answer answer = step(&console->reader, byte, silence);
    say_bundle(rows, &answer);
    return true;
}

static bool close_command(struct console *console, const struct word *words, struct rows *rows)
{
    (void)words;
    struct bundle_answer answer = end_bundle(&console->reader);
    say_bundle(rows, &answer);
    return true;
}

static bool read_header(const struct word *words, struct header *header)
{
    return read_byte(&words[0], &header->message) && read_flag(&words[1], &header->acknowledge)
        && read_u8(&words[2], &header->sender_type) && read_u8(&words[3], &header->receiver_type)
        && read_u32(&words[4], &header->source) && read_u32(&words[5], &header->destination);
}

static bool write_command(struct console *console, const struct word *words, struct rows *rows)
{
    (void)console;
    struct header header;
    struct bytes data;
    struct wire wire;
    if (!read_header(words, &header) || !read_hex(&words[6], &data))
        return false;
    enum refusal refusal = write_frame(&header, data.bytes, data.count, &wire);
    if (refusal == ACCEPTED)
        say_hex(rows, "wire", wire.bytes, wire.count);
    else
        say_outcome(rows, refusal, "");
    return true;
}

static bool rts_command(struct console *console, const struct word *words, struct rows *rows)
{
    (void)console;
    struct bytes bundle;
    struct rts rts;
    if (!read_hex(&words[0], &bundle))
        return false;
    enum refusal refusal = read_rts(bundle.bytes, bundle.count, &rts);
    if (refusal == ACCEPTED)
        say_rts(rows, &rts);
    else
        say_outcome(rows, refusal, "");
    return true;
}

/* As many FIELDS as the message has and no more; an empty word, where the line ends, is no field. */
static bool read_fields(const struct word *words, struct rts *rts)
{
    int count = rts_data_count(rts->header.message);
    for (int at = 0; at < count; at++)
        if (!read_u8(&words[at], &rts->fields.data[at]))
            return false;
    return count != NOT_LISTED && words[count].length == 0;
}

static bool rtswrite_command(struct console *console, const struct word *words, struct rows *rows)
{
    (void)console;
    struct rts rts;
    uint8_t buffer[BUNDLE_LONGEST];
    if (!read_header(words, &rts.header) || !read_fields(words + 6, &rts))
        return false;
    enum refusal refusal = write_rts(&rts, buffer, sizeof buffer, 0);
    if (refusal == ACCEPTED)
        say_hex(rows, "wire", buffer, rts_length(rts.header.message));
    else
        say_outcome(rows, refusal, "");
    return true;
}

struct command_row {
    const char *name;
    size_t words;  /* behind the name */
    command *obey;
};

static const struct command_row command_table[] = {
    {"node", 3, node_command},
    {"node", 7, node_with_plate_command},
    {"frame", 1, frame_command},
    {"pulse", 1, pulse_command},
    {"blocked", 1, blocked_command},
    {"cleared", 0, cleared_command},
    {"power", 0, power_command},
    {"state", 0, state_command},
    {"line", 2, line_command},
    {"strike", 2, strike_command},
    {"motors", 0, motors_command},
    {"store", 0, store_command},
    {"load", 1, load_command},
    {"byte", 2, byte_command},
    {"close", 0, close_command},
    {"write", 7, write_command},
    {"rts", 1, rts_command},
    {"rtswrite", 6, rtswrite_command},
    {"rtswrite", 7, rtswrite_command},
    {"rtswrite", 8, rtswrite_command},
    {"rtswrite", 9, rtswrite_command},
    {"rtswrite", 10, rtswrite_command},
};

enum { COMMANDS = sizeof command_table / sizeof command_table[0] };

/* ------------------------------------------------------------------------
 * Lines
 * ------------------------------------------------------------------------ */

static bool obey_line(struct console *console, const uint8_t *line, size_t length, struct rows *rows)
{
    struct word words[WORDS_MOST + 1];
    size_t count = split_words(line, length, words);
    for (size_t at = 0; count > 0 && at < COMMANDS; at++)
        if (is_word(&words[0], command_table[at].name) && count == command_table[at].words + 1)
            return command_table[at].obey(console, words + 1, rows);
    return false;
}

bool is_passed_over(const uint8_t *line, size_t length)
{
    return length == 0 || line[0] == '#';
}

/* Fills the rows that answer a line; a line over the longest is never looked into. */
void answer_line(struct console *console, const uint8_t *line, size_t length, struct rows *rows)
{
    rows->length = 0;
    if (is_passed_over(line, length))
        return;
    if (length > LINE_LONGEST || !obey_line(console, line, length, rows))
        say(rows, "bad line\n");
}

enum { LINE_KEPT = LINE_LONGEST + 1 };  /* room for the carriage return of a longest line */

struct input_line {
    uint8_t bytes[LINE_KEPT];
    size_t length;  /* counts on where the bytes are no longer kept */
};

/* Reads up to the line feed; false when the input has ended before any byte. */
static bool read_line(FILE *input, struct input_line *line)
{
    int byte;
    int last = EOF;
    line->length = 0;
    while ((byte = getc(input)) != EOF && byte != '\n') {
        if (line->length < LINE_KEPT)
            line->bytes[line->length] = (uint8_t)byte;
        line->length++;
        last = byte;
    }
    bool some = byte == '\n' || line->length > 0;
    if (byte == '\n' && last == '\r')
        line->length--;
    return some;
}

void run_console(void)
{
    static struct console console;
    static struct input_line line;
    static struct rows rows;
    while (read_line(stdin, &line)) {
        answer_line(&console, line.bytes, line.length, &rows);
        fwrite(rows.text, 1, rows.length, stdout);
        fflush(stdout);
    }
}
