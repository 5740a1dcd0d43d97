/* Lines about the board. */

#include "script_board.h"

#include <stdbool.h>
#include <stddef.h>
#include <stdint.h>

#include "board.h"
#include "messages.h"
#include "plate.h"
#include "script_frame.h"

static uint32_t own_node_id(const struct script *script)
{
    return script->console.has_board ? script->console.board.node_id : 0x050403;
}

static uint32_t own_travel(const struct script *script)
{
    return script->console.has_board ? script->console.board.travel : 1000;
}

/* ------------------------------------------------------------------------
 * Requests
 * ------------------------------------------------------------------------ */

/* Groups come from a small pool, so that requests meet them again. */
static uint32_t any_group(struct script *script)
{
    return ONE_OF(script, 0x000000, 0x000001, 0x010203, 0x010204, 0x0A0B0C, 0x0C0B0A, 0xFFFF00, 0xFFFEFF,
                  0xFFFFFF, own_node_id(script));
}

static uint32_t any_host(struct script *script)
{
    if (chance(script, 80))
        return ONE_OF(script, 0xFFFF00, 0xFFFF01, 0xFFFFFE, 0x010000, script->console.board.holder);
    return ONE_OF(script, 0x000000, 0x000001, 0xFFFFFF, own_node_id(script), below(script, 0x1000000));
}

static uint32_t other_destination(struct script *script)
{
    uint32_t own = own_node_id(script);
    uint32_t reversed = (own & 0xFF) << 16 | (own & 0xFF00) | own >> 16;
    return ONE_OF(script, own - 1, own + 1, own ^ 0x010000, reversed, BROADCAST_MARK - 1,
                  below(script, 0x1000000));
}

/* Addressed properly most of the time. */
static void address_request(struct script *script, struct header *header)
{
    uint32_t kind = below(script, 100);
    header->destination = own_node_id(script);
    header->source = any_host(script);
    if (kind < 12)
        header->destination = BROADCAST_MARK;
    else if (kind < 18)
        header->destination = other_destination(script);
    else if (kind < 32) {
        header->destination = GROUP_MARK;
        header->source = chance(script, 60) ? script->console.board.groups[below(script, GROUPS)]
                                            : any_group(script);
    }
}

static uint16_t any_percent(struct script *script)
{
    const struct board *board = &script->console.board;
    uint32_t present = script->console.has_board ? percent_of_pulse(board->position, board->travel) : 0;
    uint32_t high_byte = ONE_OF(script, 0, 0, 0, 0, 0, 0, 0, 0, 0, 0, 0, 0, 0, 1, 255) << 8;
    return (uint16_t)(high_byte
                      | ONE_OF(script, 0, 1, 49, 50, 99, 100, 101, 102, 255, present, present,
                               below(script, 103), below(script, 103), below(script, 101), below(script, 101),
                               below(script, 101), below(script, 101)));
}

static uint8_t any_favourite_number(struct script *script)
{
    return (uint8_t)ONE_OF(script, 0, 1, 2, 3, 15, 16, 17, 255, between(script, 1, 16), between(script, 1, 16),
                           between(script, 1, 16), between(script, 1, 16), between(script, 1, 16));
}

/* About both ends of 1 to 16, and over 16 with the low byte, the high byte or both in that range. */
static uint16_t any_favourite_position(struct script *script)
{
    if (chance(script, 40))
        return (uint16_t)between(script, 1, FAVOURITES);
    return (uint16_t)ONE_OF(script, 0, 0, 1, 1, 2, 15, 16, 16, 17, 17, 256, 257, 272, 4096, 65535,
                            between(script, 1, FAVOURITES) << 8 | between(script, 1, FAVOURITES));
}

static void moveto_data(struct script *script, uint8_t *data)
{
    data[0] = (uint8_t)ONE_OF(script, 0, 0, 1, 1, 2, 2, 2, 4, 4, 4, 4, 4, 3, 5, below(script, 256));
    uint16_t position = any_percent(script);
    if (data[0] == MOVE_TO_FAVOURITE)
        position = any_favourite_position(script);
    put_two_bytes(data + 1, position);
    data[3] = any_byte(script);
}

static void set_motor_ip_data(struct script *script, uint8_t *data)
{
    data[0] = (uint8_t)ONE_OF(script, 0, 0, 1, 1, 1, 3, 3, 3, 3, 4, 2, 5, below(script, 256));
    data[1] = any_favourite_number(script);
    uint16_t value = any_percent(script);
    if (data[0] == IP_DIVIDE)
        value = (uint16_t)ONE_OF(script, 0, 1, 2, 3, 15, 16, 17, 258, between(script, 1, 16));
    put_two_bytes(data + 2, value);
}

/* Priorities around the holder's. */
static void lock_data(struct script *script, uint8_t *data)
{
    uint32_t held = script->console.board.priority;
    data[0] = (uint8_t)ONE_OF(script, 0, 0, 0, 1, 1, 1, 1, 1, 3, 4, 4, 2, 5, below(script, 256));
    data[1] = (uint8_t)ONE_OF(script, 0, 1, 254, 255, held, held + 1, held - 1, held - 1, below(script, 256),
                              below(script, 256));
}

static void group_data(struct script *script, uint8_t *data)
{
    data[0] = (uint8_t)ONE_OF(script, 0, 1, 14, 15, 16, 17, 255, below(script, 16), below(script, 16),
                              below(script, 16));
    put_three_bytes(data + 1, any_group(script));
}

static uint8_t any_label_byte(struct script *script)
{
    return (uint8_t)ONE_OF(script, LABEL_BYTE_FIRST, LABEL_BYTE_LAST,
                           between(script, LABEL_BYTE_FIRST, LABEL_BYTE_LAST),
                           between(script, LABEL_BYTE_FIRST, LABEL_BYTE_LAST));
}

static uint8_t not_a_label_byte(struct script *script)
{
    return (uint8_t)ONE_OF(script, LABEL_BYTE_FIRST - 1, LABEL_BYTE_FIRST - 1, LABEL_BYTE_LAST + 1,
                           LABEL_BYTE_LAST + 1, 0x00, 0x80, 0xA0, 0xFF, below(script, LABEL_BYTE_FIRST),
                           between(script, LABEL_BYTE_LAST + 1, 255));
}

/* A text of any length, filled up with spaces. */
static void right_label(struct script *script, uint8_t *data)
{
    size_t text = ONE_OF(script, 0, 1, 8, 15, LABEL_LENGTH, LABEL_LENGTH, LABEL_LENGTH);
    for (size_t at = 0; at < LABEL_LENGTH; at++)
        data[at] = at < text ? any_label_byte(script) : SPACE;
}

/* DATA of a 55h: most labels are right, some have one wrong byte, few are nothing but random bytes. */
static void label_data(struct script *script, uint8_t *data)
{
    for (size_t at = LABEL_LENGTH; at < DATA_MOST; at++)
        data[at] = chance(script, 70) ? not_a_label_byte(script) : any_byte(script);
    if (chance(script, 3))
        return;
    right_label(script, data);
    size_t place = ONE_OF(script, 0, LABEL_LENGTH - 1, between(script, 1, LABEL_LENGTH - 2));
    if (chance(script, 30))
        data[place] = not_a_label_byte(script);
}

static void fill_data(struct script *script, struct frame *request)
{
    for (size_t at = 0; at < DATA_MOST; at++)
        request->data[at] = any_byte(script);
    switch (request->header.message) {
    case MOVETO:
        moveto_data(script, request->data);
        break;
    case SET_MOTOR_IP:
        set_motor_ip_data(script, request->data);
        break;
    case GET_MOTOR_IP:
        request->data[0] = any_favourite_number(script);
        break;
    case SET_NETWORK_LOCK:
        lock_data(script, request->data);
        break;
    case GET_GROUP_ADDR:
    case SET_GROUP_ADDR:
        group_data(script, request->data);
        break;
    case SET_NODE_LABEL:
    case POST_NODE_LABEL:
        label_data(script, request->data);
        break;
    default:
        break;
    }
}

/* How much DATA a message needs, or carries where it is a reply about label and plate. */
static size_t usual_data_count(uint8_t message)
{
    const struct message_row *row = row_of(message);
    switch (message) {
    case POST_NODE_LABEL:
        return LABEL_LENGTH;
    case POST_NODE_SERIAL_NUMBER:
        return 12;
    case POST_NODE_APP_VERSION:
        return 6;
    default:
        return row == NULL ? 0 : row->data_at_least;
    }
}

struct frame any_request(struct script *script)
{
    struct frame request = {.header = {.message = any_message(script), .acknowledge = chance(script, 70)}};
    address_request(script, &request.header);
    choose_types(script, &request.header);
    fill_data(script, &request);
    request.data_count = any_data_count(script, usual_data_count(request.header.message));
    return request;
}

/* From one host to the board's own NodeID, with all the DATA that the message needs, zeros as yet. */
static struct frame plain_request(struct script *script, uint8_t message, uint32_t acknowledged_of_hundred)
{
    return (struct frame){
        .header = {.message = message,
                   .acknowledge = chance(script, acknowledged_of_hundred),
                   .source = 0xFFFF00,
                   .destination = own_node_id(script)},
        .data_count = row_of(message)->data_at_least,
    };
}

/* An unlock that is accepted, so that locks do not stand for ever. */
struct frame unlocking_request(struct script *script)
{
    struct frame request = plain_request(script, SET_NETWORK_LOCK, 60);
    request.data[0] = LOCK_UNLOCK;
    request.data[1] = (uint8_t)between(script, script->console.board.priority, 255);
    return request;
}

static void put_request(struct script *script, const struct frame *request)
{
    struct loose_bundle bundle = bundle_of(request);
    start_line(script, "frame");
    put_hex(script, bundle.bytes, bundle.count);
}

void board_frame_line(struct script *script)
{
    bool unlock = script->console.board.locked && chance(script, 4);
    struct frame request = unlock ? unlocking_request(script) : any_request(script);
    if (request.header.message == SET_NODE_LABEL)
        script->looks_left = 2;
    put_request(script, &request);
}

void damaged_frame_line(struct script *script)
{
    struct frame request = any_request(script);
    struct loose_bundle bundle = bundle_of(&request);
    damage_bundle(script, &bundle);
    start_line(script, "frame");
    put_hex(script, bundle.bytes, bundle.count);
}

/* ------------------------------------------------------------------------
 * Events and the state
 * ------------------------------------------------------------------------ */

/* Pulses that lie about the middle between two percents. */
static uint32_t pulse_about_a_half(struct script *script)
{
    uint32_t odd = 2 * below(script, 100) + 1;
    return odd * own_travel(script) / 200 + below(script, 2);
}

/* Between the position and the target, at it, or beyond it. */
static uint32_t pulse_about_target(struct script *script)
{
    const struct board *board = &script->console.board;
    uint32_t least = board->position < board->target ? board->position : board->target;
    uint32_t most = board->position < board->target ? board->target : board->position;
    return ONE_OF(script, board->target, board->target, board->target + 1, board->target - 1,
                  board->position, between(script, least, most), between(script, least, most),
                  between(script, least, most), 0, board->travel)
        & 0xFFFF;
}

static uint32_t any_pulse(struct script *script)
{
    const struct board *board = &script->console.board;
    uint32_t travel = own_travel(script);
    uint32_t favourite = board->favourites[below(script, FAVOURITES)].pulse;
    return ONE_OF(script, 0, 1, travel, travel - 1, travel + 1, 65535, favourite, favourite, favourite,
                  below(script, travel + 1), below(script, travel + 1), pulse_about_a_half(script),
                  pulse_about_a_half(script))
        & 0xFFFF;
}

void pulse_line(struct script *script)
{
    bool towards = script->console.board.running && chance(script, 80);
    start_line(script, "pulse");
    put_decimal(script, towards ? pulse_about_target(script) : any_pulse(script));
}

void blocked_line(struct script *script)
{
    start_line(script, "blocked");
    put_hex_byte(script, (uint8_t)ONE_OF(script, 0x20, 0x20, 0x21, 0x21, 0x22, 0x22, 0x00, 0x1F, 0x23, 0x30, 0xFF));
}

void cleared_line(struct script *script)
{
    start_line(script, "cleared");
}

void power_line(struct script *script)
{
    start_line(script, "power");
}

void state_line(struct script *script)
{
    start_line(script, "state");
}

/* A GET of label or plate that the board answers. */
static void looking_frame_line(struct script *script)
{
    uint8_t message = (uint8_t)ONE_OF(script, GET_NODE_LABEL, GET_NODE_LABEL, GET_NODE_APP_VERSION,
                                      GET_NODE_SERIAL_NUMBER);
    struct frame request = plain_request(script, message, 50);
    put_request(script, &request);
}

/* After a label or a set-up: shows what the board holds, at times only after a power-up. */
void look_line(struct script *script)
{
    script->looks_left--;
    switch (below(script, 8)) {
    case 0:
        power_line(script);
        break;
    case 1:
    case 2:
    case 3:
        state_line(script);
        break;
    default:
        looking_frame_line(script);
        break;
    }
}

/* ------------------------------------------------------------------------
 * A fitter's visit: a favourite is stored, then called by the same number
 * ------------------------------------------------------------------------ */

/* Begins a visit. Most favourites are stored, some deleted; with shares the number may lie beyond the last. */
void store_favourite_line(struct script *script)
{
    struct frame request = plain_request(script, SET_MOTOR_IP, 80);
    uint8_t function = (uint8_t)ONE_OF(script, IP_DELETE, IP_CURRENT, IP_CURRENT, IP_CURRENT, IP_PERCENT, IP_PERCENT,
                                       IP_PERCENT, IP_DIVIDE);
    uint32_t value = function == IP_DIVIDE ? between(script, 1, FAVOURITES) : below(script, PERCENT_MOST + 1);
    script->favourite = ONE_OF(script, 1, 1, 2, 15, 16, 16, between(script, 1, FAVOURITES),
                               between(script, 1, FAVOURITES), between(script, 1, FAVOURITES), 0, FAVOURITES + 1);
    script->visit_left = 3;
    request.data[0] = function;
    request.data[1] = (uint8_t)script->favourite;
    put_two_bytes(request.data + 2, (uint16_t)value);
    put_request(script, &request);
}

/* A lock that is accepted. */
static void locking_frame_line(struct script *script)
{
    struct frame request = plain_request(script, SET_NETWORK_LOCK, 60);
    request.data[0] = LOCK_LOCK;
    request.data[1] = script->console.board.priority;
    put_request(script, &request);
}

static void unlocking_frame_line(struct script *script)
{
    struct frame request = unlocking_request(script);
    put_request(script, &request);
}

/* A move to one of the limits, so that the favourite is called while the motor runs. */
static void starting_frame_line(struct script *script)
{
    struct frame request = plain_request(script, MOVETO, 60);
    request.data[0] = (uint8_t)ONE_OF(script, MOVE_DOWN, MOVE_UP);
    put_request(script, &request);
}

/* Between storing and calling the motor may be moved, started, locked or blocked, or no longer be so. */
static void meantime_line(struct script *script)
{
    switch (below(script, 8)) {
    case 0:
        locking_frame_line(script);
        break;
    case 1:
        unlocking_frame_line(script);
        break;
    case 2:
        blocked_line(script);
        break;
    case 3:
        cleared_line(script);
        break;
    case 4:
    case 5:
        starting_frame_line(script);
        break;
    default:
        pulse_line(script);
        break;
    }
}

/* By the number stored; at times by a neighbour, or with a high byte that makes it no number. */
static void call_favourite_line(struct script *script)
{
    uint32_t number = script->favourite;
    struct frame request = plain_request(script, MOVETO, 80);
    uint32_t position = ONE_OF(script, number, number, number, number, number, number, number, number - 1, number + 1,
                               number + 256);
    request.data[0] = MOVE_TO_FAVOURITE;
    put_two_bytes(request.data + 1, (uint16_t)position);
    put_request(script, &request);
}

/* After the storing: the meantime, the call, and the state that it leads to. */
void visit_line(struct script *script)
{
    script->visit_left--;
    switch (script->visit_left) {
    case 2:
        meantime_line(script);
        break;
    case 1:
        call_favourite_line(script);
        break;
    default:
        state_line(script);
        break;
    }
}
