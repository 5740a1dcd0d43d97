/* What the board does at a frame: the message table, the codes of refusals, the effects and the replies. */

#include "messages.h"

#include <stdbool.h>
#include <string.h>

enum { RESERVED = 0xFF };  /* what we send in a reserved byte */
enum { STATUS_STOPPED = 0, STATUS_RUNNING = 1, STATUS_BLOCKED = 2, STATUS_LOCKED = 3 };

/* The codes that a 6Fh carries. */
enum code {
    NO_REFUSAL = 0x00,
    OUT_OF_RANGE = 0x01,
    UNKNOWN_MESSAGE = 0x10,
    TOO_LITTLE_DATA = 0x11,
    LOCKED = 0x20,
    FAVOURITE_NOT_SET = 0x23,
    PRIORITY_TOO_LOW = 0x25,
    BLOCKED = 0xFF
};

/* ------------------------------------------------------------------------
 * The message table
 * ------------------------------------------------------------------------ */

static const struct message_row message_table[] = {
    {STOP, 1},
    {MOVETO, 4},
    {GET_MOTOR_POSITION, 0},
    {GET_MOTOR_STATUS, 0},
    {SET_MOTOR_IP, 4},
    {GET_MOTOR_IP, 1},
    {SET_NETWORK_LOCK, 2},
    {GET_NETWORK_LOCK, 0},
    {GET_NODE_ADDR, 0},
    {GET_GROUP_ADDR, 1},
    {SET_GROUP_ADDR, 4},
    {GET_NODE_LABEL, 0},
    {SET_NODE_LABEL, LABEL_LENGTH},
    {GET_NODE_APP_VERSION, 0},
    {GET_NODE_SERIAL_NUMBER, 0},
};

_Static_assert(sizeof message_table / sizeof message_table[0] == MESSAGES, "the table has a row for each message");

const struct message_row *row_at(size_t number)
{
    return &message_table[number];
}

const struct message_row *row_of(uint8_t message)
{
    for (size_t at = 0; at < MESSAGES; at++)
        if (message_table[at].message == message)
            return &message_table[at];
    return NULL;
}

/* ------------------------------------------------------------------------
 * Refusals
 * ------------------------------------------------------------------------ */

/* DATA: function, position 16, reserved. */
static bool moveto_out_of_range(const uint8_t *data)
{
    uint16_t position = two_bytes(data + 1);
    switch (data[0]) {
    case MOVE_DOWN:
    case MOVE_UP:
        return false;
    case MOVE_TO_FAVOURITE:
        return !is_favourite_number(position);
    case MOVE_TO_PERCENT:
        return position > PERCENT_MOST;
    default:
        return true;
    }
}

/* DATA: function, index, value 16. */
static bool set_motor_ip_out_of_range(const uint8_t *data)
{
    uint16_t value = two_bytes(data + 2);
    switch (data[0]) {
    case IP_DELETE:
    case IP_CURRENT:
        return !is_favourite_number(data[1]);
    case IP_PERCENT:
        return !is_favourite_number(data[1]) || value > PERCENT_MOST;
    case IP_DIVIDE:
        return value < 1 || value > FAVOURITES;
    default:
        return true;
    }
}

static bool is_lock_function(uint8_t function)
{
    return function == LOCK_UNLOCK || function == LOCK_LOCK || function == LOCK_SAVE
        || function == LOCK_DO_NOT_SAVE;
}

static bool field_out_of_range(const struct frame *request)
{
    const uint8_t *data = request->data;
    switch (request->header.message) {
    case MOVETO:
        return moveto_out_of_range(data);
    case SET_MOTOR_IP:
        return set_motor_ip_out_of_range(data);
    case GET_MOTOR_IP:
        return !is_favourite_number(data[0]);
    case SET_NETWORK_LOCK:
        return !is_lock_function(data[0]);
    case GET_GROUP_ADDR:
    case SET_GROUP_ADDR:
        return data[0] >= GROUPS;
    case SET_NODE_LABEL:
        return !is_label(data);
    default:
        return false;
    }
}

static bool refused_by_lock(const struct board *board, const struct frame *request)
{
    uint8_t message = request->header.message;
    return board->locked && (message == STOP || message == MOVETO);
}

/* Unlock and lock need at least the holder's priority; 3 and 4 are accepted always. */
static bool priority_too_low(const struct board *board, const struct frame *request)
{
    if (request->header.message != SET_NETWORK_LOCK || !board->locked)
        return false;
    uint8_t function = request->data[0];
    return (function == LOCK_UNLOCK || function == LOCK_LOCK)
        && request->data[1] < board->priority;
}

/* MOVETO and SET_MOTOR_IP name a favourite by the same number (2026-03); it is in range by now. */
static bool favourite_not_set(const struct board *board, const struct frame *request)
{
    const uint8_t *data = request->data;
    if (request->header.message == MOVETO && data[0] == MOVE_TO_FAVOURITE)
        return !board->favourites[favourite_place(two_bytes(data + 1))].set;
    if (request->header.message == SET_MOTOR_IP && data[0] == IP_DELETE)
        return !board->favourites[favourite_place(data[1])].set;
    return false;
}

/* The codes, in the order of checking that the paper lays down. */
static enum code code_of(const struct board *board, const struct frame *request)
{
    const struct message_row *row = row_of(request->header.message);
    if (row == NULL)
        return UNKNOWN_MESSAGE;
    if (request->data_count < row->data_at_least)
        return TOO_LITTLE_DATA;
    if (field_out_of_range(request))
        return OUT_OF_RANGE;
    if (refused_by_lock(board, request))
        return LOCKED;
    if (priority_too_low(board, request))
        return PRIORITY_TOO_LOW;
    if (request->header.message == MOVETO && board->blocked)
        return BLOCKED;
    if (favourite_not_set(board, request))
        return FAVOURITE_NOT_SET;
    return NO_REFUSAL;
}

/* ------------------------------------------------------------------------
 * Effects
 * ------------------------------------------------------------------------ */

/* Explicitly stopped from the network; a motor that stands is left as it is. */
static void stop_if_running(struct board *board)
{
    if (board->running)
        stop_motor(board, SOURCE_NETWORK, CAUSE_COMMAND);
}

static uint16_t target_of(const struct board *board, const uint8_t *data)
{
    uint16_t position = two_bytes(data + 1);
    switch (data[0]) {
    case MOVE_DOWN:
        return board->travel;
    case MOVE_UP:
        return 0;
    case MOVE_TO_FAVOURITE:
        return board->favourites[favourite_place(position)].pulse;
    default:
        return pulse_of_percent(position, board->travel);
    }
}

static void move_to(struct board *board, uint16_t target)
{
    if (target == board->position) {
        stop_motor(board, SOURCE_INTERNAL, CAUSE_REACHED);
        return;
    }
    board->running = true;
    board->target = target;
    board->direction = target > board->position ? GOING_DOWN : GOING_UP;
    board->source = SOURCE_NETWORK;
    board->cause = CAUSE_COMMAND;
}

static struct favourite favourite_at(uint16_t pulse)
{
    return (struct favourite){.set = true, .pulse = pulse};
}

/* Favourite i of n gets percent 100 x i / (n + 1) rounded down; the rest become unset. */
static void divide_travel(struct board *board, uint32_t n)
{
    for (uint16_t i = 1; i <= FAVOURITES; i++) {
        struct favourite *favourite = &board->favourites[favourite_place(i)];
        *favourite = (struct favourite){0};
        if (i <= n)
            *favourite = favourite_at(pulse_of_percent(100u * i / (n + 1), board->travel));
    }
}

static void set_motor_ip(struct board *board, const uint8_t *data)
{
    uint16_t value = two_bytes(data + 2);
    if (data[0] == IP_DIVIDE) {
        divide_travel(board, value);
        return;
    }
    struct favourite *favourite = &board->favourites[favourite_place(data[1])];
    if (data[0] == IP_DELETE)
        *favourite = (struct favourite){0};
    else if (data[0] == IP_CURRENT)
        *favourite = favourite_at(board->position);
    else
        *favourite = favourite_at(pulse_of_percent(value, board->travel));
}

static void set_network_lock(struct board *board, const struct frame *request)
{
    switch (request->data[0]) {
    case LOCK_UNLOCK:
        drop_lock(board);
        break;
    case LOCK_LOCK:
        board->locked = true;
        board->holder = request->header.source;
        board->priority = request->data[1];
        stop_if_running(board);
        break;
    default:
        board->saved = request->data[0] == LOCK_SAVE;
        break;
    }
}

/* The effect of a SET or CTRL message that is not refused. */
static void act(struct board *board, const struct frame *request)
{
    const uint8_t *data = request->data;
    switch (request->header.message) {
    case STOP:
        stop_if_running(board);
        break;
    case MOVETO:
        move_to(board, target_of(board, data));
        break;
    case SET_MOTOR_IP:
        set_motor_ip(board, data);
        break;
    case SET_NETWORK_LOCK:
        set_network_lock(board, request);
        break;
    case SET_NODE_LABEL:
        memcpy(board->label, data, LABEL_LENGTH);
        break;
    default:
        board->groups[data[0]] = three_bytes(data + 1);
        break;
    }
}

/* ------------------------------------------------------------------------
 * Replies
 * ------------------------------------------------------------------------ */

static uint8_t status_of(const struct board *board)
{
    if (board->locked)
        return STATUS_LOCKED;
    if (board->blocked)
        return STATUS_BLOCKED;
    return board->running ? STATUS_RUNNING : STATUS_STOPPED;
}

/* The first favourite whose pulse equals the position, else FFh. */
static uint8_t favourite_reported(const struct board *board)
{
    for (uint8_t number = 1; number <= FAVOURITES; number++) {
        const struct favourite *favourite = &board->favourites[favourite_place(number)];
        if (favourite->set && favourite->pulse == board->position)
            return number;
    }
    return NO_FAVOURITE;
}

static void add_byte(struct frame *reply, uint8_t byte)
{
    reply->data[reply->data_count++] = byte;
}

static void add_two_bytes(struct frame *reply, uint16_t value)
{
    put_two_bytes(reply->data + reply->data_count, value);
    reply->data_count += 2;
}

static void add_three_bytes(struct frame *reply, uint32_t value)
{
    put_three_bytes(reply->data + reply->data_count, value);
    reply->data_count += 3;
}

static void add_bytes(struct frame *reply, const uint8_t *bytes, size_t count)
{
    memcpy(reply->data + reply->data_count, bytes, count);
    reply->data_count += count;
}

/* The six hexadecimal digits of an address as it is printed, in capitals, high byte first. */
static void add_printed_address(struct frame *reply, uint32_t address)
{
    for (int shift = 20; shift >= 0; shift -= 4)
        add_byte(reply, (uint8_t)"0123456789ABCDEF"[address >> shift & 0x0F]);
}

static void post_position(const struct board *board, struct frame *reply)
{
    reply->header.message = POST_MOTOR_POSITION;
    add_two_bytes(reply, board->position);
    add_byte(reply, percent_of_pulse(board->position, board->travel));
    add_byte(reply, RESERVED);
    add_byte(reply, favourite_reported(board));
}

static void post_status(const struct board *board, struct frame *reply)
{
    reply->header.message = POST_MOTOR_STATUS;
    add_byte(reply, status_of(board));
    add_byte(reply, board->direction);
    add_byte(reply, board->source);
    add_byte(reply, board->cause);
}

static void post_favourite(const struct board *board, uint8_t number, struct frame *reply)
{
    const struct favourite *favourite = &board->favourites[favourite_place(number)];
    reply->header.message = POST_MOTOR_IP;
    add_byte(reply, number);
    add_byte(reply, RESERVED);
    add_byte(reply, RESERVED);
    add_byte(reply, favourite->set ? percent_of_pulse(favourite->pulse, board->travel) : NO_FAVOURITE);
}

static void post_lock(const struct board *board, struct frame *reply)
{
    reply->header.message = POST_NETWORK_LOCK;
    add_byte(reply, board->locked ? 1 : 0);
    add_three_bytes(reply, board->holder);
    add_byte(reply, board->priority);
    add_byte(reply, board->saved ? 1 : 0);
}

static void post_group(const struct board *board, uint8_t index, struct frame *reply)
{
    reply->header.message = POST_GROUP_ADDR;
    add_byte(reply, index);
    add_three_bytes(reply, board->groups[index]);
}

static void post_label(const struct board *board, struct frame *reply)
{
    reply->header.message = POST_NODE_LABEL;
    add_bytes(reply, board->label, LABEL_LENGTH);
}

static void post_version(const struct board *board, struct frame *reply)
{
    reply->header.message = POST_NODE_APP_VERSION;
    add_three_bytes(reply, board->plate.reference);
    add_byte(reply, board->plate.letter);
    add_byte(reply, board->plate.number);
    add_byte(reply, RESERVED);
}

/* NodeID, maker, year and week, twelve characters. */
static void post_serial_number(const struct board *board, struct frame *reply)
{
    reply->header.message = POST_NODE_SERIAL_NUMBER;
    add_printed_address(reply, board->node_id);
    add_bytes(reply, board->plate.characters, PLATE_CHARACTERS);
}

/* Builds the POST of a GET; false when the message is a SET or CTRL. */
static bool post(const struct board *board, const struct frame *request, struct frame *reply)
{
    switch (request->header.message) {
    case GET_MOTOR_POSITION:
        post_position(board, reply);
        return true;
    case GET_MOTOR_STATUS:
        post_status(board, reply);
        return true;
    case GET_MOTOR_IP:
        post_favourite(board, request->data[0], reply);
        return true;
    case GET_NETWORK_LOCK:
        post_lock(board, reply);
        return true;
    case GET_NODE_ADDR:
        reply->header.message = POST_NODE_ADDR;
        return true;
    case GET_GROUP_ADDR:
        post_group(board, request->data[0], reply);
        return true;
    case GET_NODE_LABEL:
        post_label(board, reply);
        return true;
    case GET_NODE_APP_VERSION:
        post_version(board, reply);
        return true;
    case GET_NODE_SERIAL_NUMBER:
        post_serial_number(board, reply);
        return true;
    default:
        return false;
    }
}

/* Own NodeID and type as sender; DEST and receiver type are the request's sender; ACK 0, no DATA yet. */
static struct frame reply_to(const struct board *board, const struct header *request)
{
    return (struct frame){
        .header = {.sender_type = board->type,
                   .receiver_type = request->sender_type,
                   .source = board->node_id,
                   .destination = request->source},
    };
}

/* ------------------------------------------------------------------------
 * The turn
 * ------------------------------------------------------------------------ */

/* Carries the request out, or refuses it; true when the reply is to be sent. */
static bool answer_request(struct board *board, const struct frame *request, struct frame *reply)
{
    enum code code = code_of(board, request);
    if (code != NO_REFUSAL) {
        reply->header.message = NACK;
        add_byte(reply, (uint8_t)code);
        return request->header.acknowledge;
    }
    if (post(board, request, reply))
        return true;
    act(board, request);
    reply->header.message = ACK;
    return request->header.acknowledge;
}

/* A bundle arrives at the board; a reply of no bytes is silence. */
enum refusal bundle_to_board(struct board *board, const uint8_t *bundle, size_t count,
                             struct wire *sent)
{
    struct frame request;
    sent->count = 0;
    enum refusal refusal = read_frame(bundle, count, &request);
    if (refusal != ACCEPTED || !is_for_board(board, &request.header))
        return refusal;
    struct frame reply = reply_to(board, &request.header);
    if (!answer_request(board, &request, &reply))
        return ACCEPTED;
    return write_frame(&reply.header, reply.data, reply.data_count, sent);
}
