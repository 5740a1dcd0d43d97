/* The board, a node on the bus: its state, set-up and events, and which frames are for it. */

#ifndef SECOND_BOARD_H
#define SECOND_BOARD_H

#include <stdbool.h>
#include <stdint.h>

#include "frame.h"
#include "plate.h"
#include "refusal.h"
#include "travel.h"

enum { GROUPS = 16 };

struct favourite {
    bool set;
    uint16_t pulse;
};

struct board {
    uint32_t node_id;
    uint8_t type;
    uint16_t travel;
    struct plate plate;

    uint16_t position;
    bool running;
    uint16_t target;    /* zero unless running */
    uint8_t direction;  /* 0 down, 1 up, FFh unknown */
    uint8_t source;     /* 0 internal, 1 network */
    uint8_t cause;
    bool blocked;

    bool locked;
    uint32_t holder;
    uint8_t priority;
    bool saved;

    struct favourite favourites[FAVOURITES];
    uint32_t groups[GROUPS];
    uint8_t label[LABEL_LENGTH];
};

enum { GOING_DOWN = 0, GOING_UP = 1, DIRECTION_UNKNOWN = 0xFF };
enum { SOURCE_INTERNAL = 0, SOURCE_NETWORK = 1 };
enum { CAUSE_REACHED = 0, CAUSE_COMMAND = 1, CAUSE_POWER_UP = 0xFF };

void stop_motor(struct board *board, uint8_t source, uint8_t cause);
void drop_lock(struct board *board);
void power_up(struct board *board);
enum refusal set_up_board(struct board *board, uint32_t node_id, uint8_t type, uint16_t travel,
                          const struct plate *plate);
enum refusal at_pulse(struct board *board, uint16_t pulse);
enum refusal blocked_by(struct board *board, uint8_t cause);
bool is_for_board(const struct board *board, const struct header *header);

#endif
