/* The board's message table, and the turn that a bundle leads to. */

#ifndef SECOND_MESSAGES_H
#define SECOND_MESSAGES_H

#include <stddef.h>
#include <stdint.h>

#include "board.h"
#include "frame.h"
#include "refusal.h"

enum { MESSAGES = 15 };

enum { MOVE_DOWN = 0, MOVE_UP = 1, MOVE_TO_FAVOURITE = 2, MOVE_TO_PERCENT = 4 };
enum { IP_DELETE = 0, IP_CURRENT = 1, IP_PERCENT = 3, IP_DIVIDE = 4 };
enum { LOCK_UNLOCK = 0, LOCK_LOCK = 1, LOCK_SAVE = 3, LOCK_DO_NOT_SAVE = 4 };

struct message_row {
    uint8_t message;
    size_t data_at_least;
};

const struct message_row *row_at(size_t number);
const struct message_row *row_of(uint8_t message);

enum refusal bundle_to_board(struct board *board, const uint8_t *bundle, size_t count,
                             struct wire *sent);

#endif
