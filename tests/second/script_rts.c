/* Lines about the messages of the RTS transmitter. */

#include "script_rts.h"

#include <stdbool.h>
#include <stddef.h>
#include <stdint.h>
#include <string.h>

#include "frame.h"
#include "rts.h"
#include "script_frame.h"

/* ------------------------------------------------------------------------
 * Fields
 * ------------------------------------------------------------------------ */

struct span {
    uint8_t least;
    uint8_t most;
};

/* A message and the ranges of its fields, so that the ends of each are met. */
struct shape {
    uint8_t message;
    size_t count;
    struct span spans[RTS_DATA_MOST];
};

static const struct shape shapes[] = {
    {CTRL_POSITION, 2, {{0, 15}, {1, 4}}},
    {CTRL_TILT, 3, {{0, 15}, {0, 1}, {1, 127}}},
    {CTRL_DIM, 3, {{0, 15}, {0, 1}, {1, 127}}},
    {SET_CHANNEL_MODE, 4, {{0, 15}, {0, 1}, {0, 1}, {0, 1}}},
    {SET_TILT_FRAMECOUNT, 3, {{0, 15}, {4, 255}, {2, 13}}},
    {SET_DIM_FRAMECOUNT, 2, {{0, 15}, {4, 255}}},
    {SET_SUN_AUTO, 2, {{0, 15}, {0, 1}}},
    {SET_DCT_LOCK, 2, {{0, 5}, {0, 1}}},
    {SET_CHANNEL, 1, {{0, 15}}},
    {SET_OPEN_PROG, 1, {{0, 15}}},
    {SET_IP, 1, {{0, 15}}},
    {GET_CHANNEL_MODE, 1, {{0, 15}}},
    {GET_TILT_FRAMECOUNT, 1, {{0, 15}}},
    {GET_DIM_FRAMECOUNT, 1, {{0, 15}}},
    {GET_DCT_LOCK, 0, {{0, 0}}},
    {POST_CHANNEL_MODE, 4, {{0, 15}, {0, 1}, {0, 1}, {0, 1}}},
    {POST_TILT_FRAMECOUNT, 3, {{0, 15}, {4, 255}, {2, 13}}},
    {POST_DIM_FRAMECOUNT, 2, {{0, 15}, {4, 255}}},
    {POST_DCT_LOCK, 1, {{0, INPUT_BITS}}},
};

enum { SHAPES = sizeof shapes / sizeof shapes[0] };

/* Messages of more fields come more often, since each of the fields has ends to be met. */
static const struct shape *any_shape(struct script *script)
{
    const struct shape *shape = &shapes[below(script, SHAPES)];
    const struct shape *other = &shapes[below(script, SHAPES)];
    return other->count > shape->count && chance(script, 60) ? other : shape;
}

static uint8_t right_field(struct script *script, const struct shape *shape, size_t number)
{
    const struct span *span = &shape->spans[number];
    uint32_t within = between(script, span->least, span->most);
    uint32_t value = ONE_OF(script, span->least, span->most, within, within);
    return (uint8_t)(shape->message == POST_DCT_LOCK ? value & INPUT_BITS : value);
}

/* At, just below and just above the ends of the range, or anywhere; below 0 comes 255, above 255 comes 0. */
static uint8_t field_about_the_ends(struct script *script, const struct span *span)
{
    uint32_t least = span->least;
    uint32_t most = span->most;
    return (uint8_t)ONE_OF(script, least - 1, least - 1, least, least + 1, most - 1, most, most + 1, most + 1, 0,
                           255, any_byte(script));
}

/* One of bits 0, 6 and 7 set beside those of inputs. */
static uint8_t inputs_with_a_foreign_bit(struct script *script)
{
    uint32_t inputs = ONE_OF(script, 0, INPUT_BITS, any_byte(script) & INPUT_BITS);
    return (uint8_t)(inputs | ONE_OF(script, 0x01, 0x40, 0x80));
}

static uint8_t doubtful_field(struct script *script, const struct shape *shape, size_t number)
{
    if (shape->message == POST_DCT_LOCK && chance(script, 60))
        return inputs_with_a_foreign_bit(script);
    return field_about_the_ends(script, &shape->spans[number]);
}

/* All in range; or one field may lie outside, so that row 15 has this one cause; or now and then any of them. */
static void choose_fields(struct script *script, const struct shape *shape, uint8_t *fields)
{
    for (size_t at = 0; at < shape->count; at++)
        fields[at] = right_field(script, shape, at);
    if (shape->count > 0 && chance(script, 60)) {
        size_t number = below(script, (uint32_t)shape->count);
        fields[number] = doubtful_field(script, shape, number);
    }
    if (chance(script, 5))
        for (size_t at = 0; at < shape->count; at++)
            fields[at] = doubtful_field(script, shape, at);
}

/* ------------------------------------------------------------------------
 * Headers
 * ------------------------------------------------------------------------ */

static uint32_t any_rts_address(struct script *script)
{
    return ONE_OF(script, 0xFFFF00, 0xFFFF00, 0xFFFFFE, 0x050002, 0x050002, 0x000000, 0x000001, ADDRESS_LAST,
                  below(script, ADDRESS_LAST + 1), below(script, ADDRESS_LAST + 1));
}

/* 002 has types 0 and 5, and hosts from FF:FF:00 on; nothing holds a caller to that. */
static struct header any_rts_header(struct script *script, uint8_t message)
{
    struct header header = {.message = message, .acknowledge = chance(script, 40)};
    header.sender_type = (uint8_t)ONE_OF(script, 0, 0, 5, 5, NODE_TYPE_LAST, below(script, NODE_TYPE_LAST + 1));
    header.receiver_type = (uint8_t)ONE_OF(script, 5, 5, 0, 0, NODE_TYPE_LAST, below(script, NODE_TYPE_LAST + 1));
    header.source = any_rts_address(script);
    header.destination = any_rts_address(script);
    return header;
}

static uint32_t no_address(struct script *script)
{
    return ONE_OF(script, ADDRESS_LAST + 1, ADDRESS_LAST + 1, ADDRESS_LAST + 2, UINT32_MAX, UINT32_MAX,
                  between(script, ADDRESS_LAST + 1, UINT32_MAX));
}

static uint8_t no_node_type(struct script *script)
{
    return (uint8_t)ONE_OF(script, NODE_TYPE_LAST + 1, NODE_TYPE_LAST + 1, NODE_TYPE_LAST + 2, 255,
                           between(script, NODE_TYPE_LAST + 1, 255));
}

/* Rows 10 and 11, singly and together. */
static void spoil_header(struct script *script, struct header *header)
{
    if (chance(script, 7))
        header->source = no_address(script);
    if (chance(script, 7))
        header->destination = no_address(script);
    if (chance(script, 7))
        header->sender_type = no_node_type(script);
    if (chance(script, 7))
        header->receiver_type = no_node_type(script);
}

/* ------------------------------------------------------------------------
 * Reading
 * ------------------------------------------------------------------------ */

/* Mostly the neighbours of the list; row 6 has FFh, and now and then it is of the list after all. */
static uint8_t message_not_listed(struct script *script)
{
    return (uint8_t)ONE_OF(script, 0x7F, 0x83, 0x8F, 0x95, 0x96, 0x99, 0x9B, 0xA3, 0xA5, 0xB3, 0xB5, 0xFE, NO_FRAME,
                           any_byte(script), any_byte(script), any_byte(script));
}

/* One fewer, one more, many more, none. */
static size_t another_count(struct script *script, size_t count)
{
    size_t fewer = count > 0 ? count - 1 : DATA_MOST - 1;
    return ONE_OF(script, 0, fewer, fewer, fewer, count + 1, count + 1, count + 1, DATA_MOST,
                  between(script, (uint32_t)count + 1, DATA_MOST));
}

static struct frame any_rts_frame(struct script *script)
{
    const struct shape *shape = any_shape(script);
    struct frame frame = {.header = any_rts_header(script, shape->message), .data_count = shape->count};
    for (size_t at = 0; at < DATA_MOST; at++)
        frame.data[at] = any_byte(script);
    choose_fields(script, shape, frame.data);
    if (chance(script, 12))
        frame.data_count = another_count(script, shape->count);
    if (chance(script, 10))
        frame.header.message = message_not_listed(script);
    return frame;
}

/* The frame's bytes unchecked, so that MSG FFh has some too. */
static struct loose_bundle loose_bundle_of(const struct frame *frame)
{
    struct loose_bundle bundle = {.count = frame_length(frame->data_count)};
    put_frame(bundle.bytes, &frame->header, frame->data, frame->data_count);
    return bundle;
}

/* 94h with the LEN that 002 prints: over two DATA bytes, row 4, or true for one, row 16. */
static struct loose_bundle printed_length_bundle(struct script *script)
{
    struct frame frame = {.header = any_rts_header(script, SET_DCT_LOCK)};
    frame.data[0] = (uint8_t)below(script, INPUT_LAST + 2);
    frame.data[1] = (uint8_t)below(script, INPUT_LOCK + 2);
    frame.data_count = between(script, 1, 2);
    struct loose_bundle bundle = loose_bundle_of(&frame);
    bundle.bytes[1] = inverted((uint8_t)(0x0C | (frame.header.acknowledge ? ACK_BIT : 0)));
    reseal(&bundle);
    return bundle;
}

static void rts_read_line(struct script *script)
{
    struct frame frame = any_rts_frame(script);
    struct loose_bundle bundle = loose_bundle_of(&frame);
    if (chance(script, 3))
        bundle = printed_length_bundle(script);
    if (chance(script, 15))
        damage_bundle(script, &bundle);
    if (chance(script, 1))
        bundle.count = 0;
    start_line(script, "rts");
    put_hex(script, bundle.bytes, bundle.count);
}

/* ------------------------------------------------------------------------
 * Writing
 * ------------------------------------------------------------------------ */

static void rts_write_line(struct script *script)
{
    const struct shape *shape = any_shape(script);
    struct header header = any_rts_header(script, shape->message);
    uint8_t fields[RTS_DATA_MOST];
    choose_fields(script, shape, fields);
    spoil_header(script, &header);
    start_line(script, "rtswrite");
    put_hex_byte(script, header.message);
    put_decimal(script, header.acknowledge);
    put_decimal(script, header.sender_type);
    put_decimal(script, header.receiver_type);
    put_decimal(script, header.source);
    put_decimal(script, header.destination);
    for (size_t at = 0; at < shape->count; at++)
        put_decimal(script, fields[at]);
}

/* ------------------------------------------------------------------------
 * Malformed lines
 * ------------------------------------------------------------------------ */

enum { MESSAGE_WORD = 1, ACK_WORD = 2, DESTINATION_WORD = 6, FIRST_FIELD_WORD = 7, SHORT_LINE = 200 };

/* One text of a list without end mark. */
#define ONE_TEXT_OF(script, texts) (texts)[below((script), sizeof(texts) / sizeof(texts)[0])]

/* The place of the space before the word of this number, counted from the name, or of the line's end. */
static size_t place_of_word(const struct script *script, size_t number)
{
    size_t place = 0;
    for (size_t spaces = 0; place < script->length; place++) {
        spaces += script->line[place] == ' ';
        if (spaces == number)
            break;
    }
    return place;
}

static size_t words_behind_name(const struct script *script)
{
    size_t count = 0;
    for (size_t at = 0; at < script->length; at++)
        count += script->line[at] == ' ';
    return count;
}

static void replace_word(struct script *script, size_t number, const char *text)
{
    uint8_t behind[SHORT_LINE];
    size_t place = place_of_word(script, number);
    size_t next = place_of_word(script, number + 1);
    size_t count = script->length - next;
    memcpy(behind, script->line + next, count);
    script->length = place;
    put_text(script, " ");
    put_text(script, text);
    memcpy(script->line + script->length, behind, count);
    script->length += count;
}

static void replace_message(struct script *script)
{
    static const char *const texts[] = {
        "7F", "83", "8F", "95", "96", "99", "9B", "A3", "A5", "B3", "B5", "FE", "FF", "00", "0C", "080", "800", "8",
        "-", "8G", "0x80", "128",
    };
    replace_word(script, MESSAGE_WORD, ONE_TEXT_OF(script, texts));
}

static void replace_header_word(struct script *script)
{
    static const char *const texts[] = {"2", "256", "4294967296", "9999999999", "00000000000", "-", "-1", "0x5", "5h"};
    size_t number = between(script, ACK_WORD, DESTINATION_WORD);
    replace_word(script, number, ONE_TEXT_OF(script, texts));
}

/* The last word where the message has no fields, which may then stay well formed. */
static void replace_field(struct script *script)
{
    static const char *const texts[] = {"256", "256", "257", "1000", "4294967295", "00000000001", "-", "-", "-1", "+1",
                                        "0x1", "1h", "FF"};
    size_t last = words_behind_name(script);
    size_t number = last < FIRST_FIELD_WORD ? last : between(script, FIRST_FIELD_WORD, (uint32_t)last);
    replace_word(script, number, ONE_TEXT_OF(script, texts));
}

static void put_malformed(struct script *script)
{
    static const char *const texts[] = {
        "rts", "rts ", "rts 7", "rts 7FF", "rts 0G", "rts --", "rts - -", "rts  -", "rts 7F F2", "rts 0x7F",
        "rts 80 0 0 5 16776960 327682 4 2", "Rts -", "RTS -", "rt -", "rtsx -", "rts-", "rtswrite", "rtswrite ",
        "rtswrite -", "rtswrite 80", "rtswrite A4", "rtswrite A4 0 0 5 16776960", "rtswrite A4 0 0 5 16776960 327682 -",
        "rtswrite A4 0 0 5 16776960 327682 ", "rtswrite 80 0 0 5 16776960 327682 0402", "rtswrite  A4 0 0 5 1 2",
        "rtswrite 80 0 0 5 16776960 327682 4  2", "rtswrite 94 0 0 5 16776960 327682 1", "Rtswrite A4 0 0 5 1 2",
        "rtswrite B0 0 5 0 327682 16776960 6 1 0 1 6", "rtswrite FF 0 0 5 16776960 327682", "rts write A4 0 0 5 1 2",
        "writerts A4 0 0 5 1 2", "rtswrite 90 0 0 5 1 2 0 0 0 0 0 0", "rtswrite 80 0 0 5 16776960 327682 - -",
    };
    start_line(script, ONE_TEXT_OF(script, texts));
}

/* A sound line with one word too few, too many, or wrong; or one of a list. */
static void malformed_rts_line(struct script *script)
{
    rts_write_line(script);
    switch (below(script, 6)) {
    case 0:
        script->length = place_of_word(script, words_behind_name(script));
        break;
    case 1:
        put_decimal(script, ONE_OF(script, 0, 1, 255, 256));
        break;
    case 2:
        replace_message(script);
        break;
    case 3:
        replace_header_word(script);
        break;
    case 4:
        replace_field(script);
        break;
    default:
        put_malformed(script);
        break;
    }
}

void rts_line(struct script *script)
{
    uint32_t kind = below(script, 100);
    if (kind < 50)
        rts_read_line(script);
    else if (kind < 90)
        rts_write_line(script);
    else
        malformed_rts_line(script);
}
