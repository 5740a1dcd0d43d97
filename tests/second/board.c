/* The board: set-up and events, and which frames are for it. */

#include "board.h"

#include <stddef.h>
#include <string.h>

void stop_motor(struct board *board, uint8_t source, uint8_t cause)
{
    board->running = false;
    board->target = 0;
    board->source = source;
    board->cause = cause;
}

void drop_lock(struct board *board)
{
    board->locked = false;
    board->holder = 0;
    board->priority = 0;
}

/* "saved" itself, position, favourites, groups and label are kept. */
void power_up(struct board *board)
{
    stop_motor(board, SOURCE_INTERNAL, CAUSE_POWER_UP);
    board->blocked = false;
    board->direction = DIRECTION_UNKNOWN;
    if (!board->saved)
        drop_lock(board);
}

/* A fresh label is sixteen spaces. */
enum refusal set_up_board(struct board *board, uint32_t node_id, uint8_t type, uint16_t travel,
                          const struct plate *plate)
{
    if (!is_node_id(node_id) || type < 1 || type > NODE_TYPE_LAST || travel < TRAVEL_LEAST || !is_plate(plate))
        return SET_UP;
    *board = (struct board){.node_id = node_id, .type = type, .travel = travel, .plate = *plate};
    memset(board->label, SPACE, LABEL_LENGTH);
    power_up(board);
    return ACCEPTED;
}

static bool reached_target(const struct board *board)
{
    if (board->direction == GOING_UP)
        return board->position <= board->target;
    return board->position >= board->target;
}

enum refusal at_pulse(struct board *board, uint16_t pulse)
{
    if (pulse > board->travel)
        return PULSE_BEYOND_TRAVEL;
    board->position = pulse;
    if (board->running && reached_target(board))
        stop_motor(board, SOURCE_INTERNAL, CAUSE_REACHED);
    return ACCEPTED;
}

enum refusal blocked_by(struct board *board, uint8_t cause)
{
    if (cause < 0x20 || cause > 0x22)
        return BLOCKING_CAUSE;
    stop_motor(board, SOURCE_INTERNAL, cause);
    board->blocked = true;
    return ACCEPTED;
}

/* An empty entry, 000000h, matches nothing. */
static bool in_group_table(const struct board *board, uint32_t address)
{
    if (address == GROUP_MARK)
        return false;
    for (size_t at = 0; at < GROUPS; at++)
        if (board->groups[at] == address)
            return true;
    return false;
}

static bool is_reply(uint8_t message)
{
    static const uint8_t replies[] = {0x0D, 0x0F, 0x33, 0x35, 0x36, 0x37, 0x60,
                                      0x61, 0x65, 0x6C, 0x6F, 0x71, 0x75, 0x7F};
    return memchr(replies, message, sizeof replies) != NULL;
}

static bool is_addressed(const struct board *board, const struct header *header)
{
    if (header->destination == GROUP_MARK)
        return in_group_table(board, header->source);
    return header->destination == board->node_id || header->destination == BROADCAST_MARK;
}

/* The four conditions of "Is the frame for this node?". */
bool is_for_board(const struct board *board, const struct header *header)
{
    bool sender_is_somebody = header->source != GROUP_MARK && header->source != BROADCAST_MARK;
    bool type_passes = header->receiver_type == 0 || header->receiver_type == board->type;
    return is_addressed(board, header) && sender_is_somebody && type_passes
        && !is_reply(header->message);
}
